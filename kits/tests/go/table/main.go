// Reads texts, a line each in hexadecimal, and says what each reads as: with the argument `terms` in the words of terms.txt, with
// `lines` in those of to-tool.txt. With `refuse NAME`, sends the wrong line of this name in kits/test.
// With `bare`, is a tool without handlers.
package main

import (
	"bufio"
	"encoding/hex"
	"errors"
	"fmt"
	"log"
	"os"
	"strings"

	"plus/toolbus"
)

func text(terms ...toolbus.Term) string {
	text, err := toolbus.Write(terms...)
	if err != nil {
		log.Fatal(err)
	}
	return text
}

func termAnswer(bytes []byte) string {
	term, err := toolbus.Read(bytes)
	var wrong *toolbus.Error
	switch {
	case !errors.As(err, &wrong):
		return fmt.Sprintf("term\t%x", text(term))
	case wrong.Kind == toolbus.Large || wrong.Kind == toolbus.Deep:
		return fmt.Sprintf("%s\t", wrong.Kind)
	default:
		return fmt.Sprintf("%s %d\t", wrong.Kind, wrong.At)
	}
}

func lineAnswer(bytes []byte) string {
	word, terms, err := toolbus.ReadLine(bytes)
	if err != nil {
		return "bad\t"
	}
	return fmt.Sprintf("%s\t%x", word, word+"("+text(terms...)+")")
}

func refuse(wrong string) {
	tool := toolbus.New()
	letters := func(count int) toolbus.Term { return toolbus.Str(strings.Repeat("a", count)) }
	var deep toolbus.Term = toolbus.Int(1)
	for level := 1; level < 65; level++ {
		deep = toolbus.List{deep}
	}
	around := toolbus.List{nil}
	around[0] = around
	sends := map[string]func() error{
		"longest":       func() error { return tool.Event(letters(65_523)) },
		"control":       func() error { return tool.Event(toolbus.Str("\x01")) },
		"unicode":       func() error { return tool.Event(toolbus.Str("a\xff")) },
		"upper-name":    func() error { return tool.Event(toolbus.Name("A")) },
		"blank-name":    func() error { return tool.Event(toolbus.Name("a b")) },
		"empty-name":    func() error { return tool.Event(toolbus.Name("")) },
		"newline-name":  func() error { return tool.Event(toolbus.Name("a\n")) },
		"deep":          func() error { return tool.Value(deep) },
		"cycle":         func() error { return tool.Value(around) },
		"long":          func() error { return tool.Event(letters(65_524)) },
		"large":         func() error { return tool.Event(letters(65_536)) },
		"connect-upper": func() error { return tool.Connect("Ed") },
		"connect-term":  func() error { return tool.Connect("ed(1)") },
		"none":          func() error { return tool.Event() },
		"no-term":       func() error { return tool.Event(nil) },
		"no-part":       func() error { return tool.Event(toolbus.List{toolbus.Int(1), nil}) },
	}
	var err *toolbus.Error
	if errors.As(sends[wrong](), &err) {
		fmt.Fprintln(os.Stderr, err.Kind)
		os.Exit(1)
	}
}

func main() {
	switch os.Args[1] {
	case "refuse":
		refuse(os.Args[2])
		return
	case "bare":
		if err := toolbus.New().Run(); err != nil {
			log.Fatal(err)
		}
		return
	}
	answer := map[string]func([]byte) string{"terms": termAnswer, "lines": lineAnswer}[os.Args[1]]
	texts := bufio.NewScanner(os.Stdin)
	texts.Buffer(nil, 1<<26)
	for texts.Scan() {
		bytes, err := hex.DecodeString(texts.Text())
		if err != nil {
			log.Fatal(err)
		}
		fmt.Println(answer(bytes))
	}
}

// Says what it was told.
package main

import (
	"fmt"
	"log"

	"plus/toolbus"
)

func main() {
	tool := toolbus.New()
	event := func(term toolbus.Term) {
		if err := tool.Event(term); err != nil {
			log.Fatal(err)
		}
	}
	tool.OnEval("", func(terms []toolbus.Term) toolbus.Term { return terms[0] })
	tool.OnEval("look-up", func(terms []toolbus.Term) toolbus.Term { return toolbus.Name("found", terms...) })
	tool.OnEval("status", func([]toolbus.Term) toolbus.Term {
		go tool.Value(toolbus.Name("ready"))
		return nil
	})
	tool.OnDo("", func(terms []toolbus.Term) { event(toolbus.Name("did", terms...)) })
	tool.OnDo("say", func(terms []toolbus.Term) {
		fmt.Println(terms[0])
		event(toolbus.Name("said"))
	})
	tool.OnAckEvent("", func(terms []toolbus.Term) { event(toolbus.Name("acked", toolbus.List(terms))) })
	tool.OnAckEvent("bid", func(terms []toolbus.Term) { event(toolbus.Name("bid-acked", terms[0], toolbus.List(terms[1:]))) })
	tool.OnTerminate(func(reason toolbus.Term) { event(toolbus.Name("ends", reason)) })
	if err := tool.Run(); err != nil {
		log.Fatal(err)
	}
}

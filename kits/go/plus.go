// A tool that adds two numbers.
package main

import (
	"log"

	"plus/toolbus"
)

func main() {
	tool := toolbus.New()
	tool.OnEval("plus", func(args []toolbus.Term) toolbus.Term {
		var a, b toolbus.Int
		if !toolbus.Scan(args, &a, &b) {
			return toolbus.Name("unknown")
		}
		return a + b
	})
	tool.OnEval("", func([]toolbus.Term) toolbus.Term { return toolbus.Name("unknown") })
	if err := tool.Run(); err != nil {
		log.Fatal(err)
	}
}

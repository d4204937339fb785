// Package toolbus is a kit for tools of the ToolBus: terms, and an event loop.
//
//	tool := toolbus.New()
//	tool.OnEval("plus", func(args []toolbus.Term) toolbus.Term {
//		var a, b toolbus.Int
//		if !toolbus.Scan(args, &a, &b) {
//			return toolbus.Name("unknown")
//		}
//		return a + b
//	})
//	err := tool.Run()
package toolbus

import (
	"bufio"
	"bytes"
	"fmt"
	"io"
	"math"
	"os"
	"path/filepath"
	"regexp"
	"strconv"
	"strings"
	"sync"
	"unicode/utf8"
)

const (
	mostSize      = 65_536
	mostDepth     = 64
	mostLineBytes = 65_536
)

// A Term is an Int, a Str, a Bool, a List or an Appl.
type Term interface{ isTerm() }

type (
	// Int is a number.
	Int int64
	// Str is a string, in UTF-8.
	Str string
	// Bool is true or false.
	Bool bool
	// List is a list of terms.
	List []Term
	// Appl is any other name with its arguments: plus(1,2) is Appl{"plus", []Term{Int(1), Int(2)}}.
	Appl struct {
		Name string
		Args []Term
	}
)

func (Int) isTerm()  {}
func (Str) isTerm()  {}
func (Bool) isTerm() {}
func (List) isTerm() {}
func (Appl) isTerm() {}

// String returns the text of the term.
func (l List) String() string { return written(l) }

// String returns the text of the term.
func (a Appl) String() string { return written(a) }

func written(term Term) string {
	text, err := Write(term)
	if err != nil {
		return fmt.Sprintf("%%!term(%v)", err)
	}
	return text
}

// Name returns the term with this name and these arguments.
func Name(name string, args ...Term) Appl { return Appl{name, args} }

// Scan reports whether there is one target for each term, and each term has the type of its target. If so, it sets the targets: pointers
// to Int, Str, Bool, List, Appl or Term.
func Scan(terms []Term, targets ...any) bool {
	if len(terms) != len(targets) {
		return false
	}
	for i, target := range targets {
		if !scan(terms[i], target) {
			return false
		}
	}
	return true
}

func scan(term Term, target any) (fits bool) {
	switch target := target.(type) {
	case *Int:
		*target, fits = term.(Int)
	case *Str:
		*target, fits = term.(Str)
	case *Bool:
		*target, fits = term.(Bool)
	case *List:
		*target, fits = term.(List)
	case *Appl:
		*target, fits = term.(Appl)
	case *Term:
		*target, fits = term, true
	default:
		panic(fmt.Sprintf("toolbus.Scan: %T isn't a pointer to a term", target))
	}
	return fits
}

// A Kind is the kind of an Error.
type Kind string

// The kinds of errors.
const (
	Syntax  Kind = "syntax"  // the text isn't a term
	Real    Kind = "real"    // a number has a decimal point
	Integer Kind = "integer" // a number is out of range
	Large   Kind = "large"   // a term or a line is too large
	Deep    Kind = "deep"    // a term is too deep
	Value   Kind = "value"   // a value has no text
)

// An Error is an error in the text of a term or of a line, or a value that has no text.
type Error struct {
	Kind    Kind
	At      int // of Syntax, Real and Integer: the byte, counted from 0
	Message string
}

func (e *Error) Error() string { return e.Message }

func failure(kind Kind, at int, format string, values ...any) *Error {
	return &Error{kind, at, fmt.Sprintf(format, values...)}
}

func checkLimits(size, depth int) error {
	if size > mostSize {
		return failure(Large, 0, "the term is too large: its size is %d, the limit is %d", size, mostSize)
	}
	if depth > mostDepth {
		return failure(Deep, 0, "the term is too deep: the limit is %d", mostDepth)
	}
	return nil
}

// open is a list, or a name with arguments, that isn't closed yet.
type open struct {
	name  string // of a list: empty
	parts []Term
}

func (o open) end() byte {
	if o.name == "" {
		return ']'
	}
	return ')'
}

func (o open) closed() Term {
	if o.name == "" {
		return List(o.parts)
	}
	return Appl{o.name, o.parts}
}

// A reader reads one term from left to right. It doesn't recurse, because a text can nest deeply.
type reader struct {
	text            []byte
	at, size, depth int
	above           []open
}

func (r *reader) syntaxError(at int) error {
	if at >= len(r.text) {
		return failure(Syntax, at, "syntax error at byte %d: found the end of the text", at)
	}
	return failure(Syntax, at, "syntax error at byte %d: found %q", at, r.text[at:at+1])
}

// peek returns the next byte, or 0 at the end. No term has the byte 0.
func (r *reader) peek() byte {
	if r.at < len(r.text) {
		return r.text[r.at]
	}
	return 0
}

// next skips whitespace, and returns the next byte, or 0 at the end.
func (r *reader) next() byte {
	r.skip(func(b byte) bool { return b == ' ' || b == '\t' || b == '\n' || b == '\r' })
	return r.peek()
}

// skip moves past all bytes of a class, and returns them.
func (r *reader) skip(class func(byte) bool) []byte {
	start := r.at
	for r.at < len(r.text) && class(r.text[r.at]) {
		r.at++
	}
	return r.text[start:r.at]
}

func isDigit(b byte) bool { return '0' <= b && b <= '9' }
func isLower(b byte) bool { return 'a' <= b && b <= 'z' }
func isPlain(b byte) bool { return b == '\t' || ' ' <= b && b <= 0x7f && b != '"' && b != '\\' }
func isInName(b byte) bool {
	return isLower(b) || 'A' <= b && b <= 'Z' || isDigit(b) || b == '-' || b == '_'
}

func (r *reader) number() (Term, error) {
	start := r.at
	if r.peek() == '-' {
		r.at++
	}
	if len(r.skip(isDigit)) == 0 {
		return nil, r.syntaxError(r.at)
	}
	if r.peek() == '.' && r.at+1 < len(r.text) && isDigit(r.text[r.at+1]) {
		return nil, failure(Real, start, "real number at byte %d: a number must be whole", start)
	}
	number, err := strconv.ParseInt(string(r.text[start:r.at]), 10, 64)
	if err != nil {
		return nil, failure(Integer, start, "number out of range at byte %d: the range is %d to %d", start, math.MinInt64, math.MaxInt64)
	}
	return Int(number), nil
}

// escape reads an escape, and returns the byte that it means.
func (r *reader) escape() (byte, error) {
	const letters, meant = `"\nrt`, "\"\\\n\r\t"
	r.at++
	i := strings.IndexByte(letters, r.peek())
	if i < 0 {
		return 0, r.syntaxError(r.at)
	}
	r.at++
	return meant[i], nil
}

// wide reads a character of more than one byte. The ranges are those of well-formed UTF-8.
func (r *reader) wide() ([]byte, error) {
	start, first := r.at, r.peek()
	more, least, most := 1, byte(0x80), byte(0xbf)
	switch {
	case first < 0xc2 || first > 0xf4:
		return nil, r.syntaxError(start)
	case first >= 0xf0:
		more = 3
	case first >= 0xe0:
		more = 2
	}
	switch first {
	case 0xe0:
		least = 0xa0
	case 0xed:
		most = 0x9f
	case 0xf0:
		least = 0x90
	case 0xf4:
		most = 0x8f
	}
	for r.at++; more > 0; more-- {
		if b := r.peek(); b < least || b > most {
			return nil, r.syntaxError(r.at)
		}
		r.at++
		least, most = 0x80, 0xbf
	}
	return r.text[start:r.at], nil
}

func (r *reader) str() (Term, error) {
	var contents bytes.Buffer
	r.at++
	for {
		contents.Write(r.skip(isPlain))
		switch b := r.peek(); {
		case b == '"':
			r.at++
			r.size += contents.Len()
			return Str(contents.String()), nil
		case b == '\\':
			meant, err := r.escape()
			if err != nil {
				return nil, err
			}
			contents.WriteByte(meant)
		case b >= 0x80:
			character, err := r.wide()
			if err != nil {
				return nil, err
			}
			contents.Write(character)
		default:
			return nil, r.syntaxError(r.at)
		}
	}
}

// name reads a name. If arguments follow, it opens them and returns no term.
func (r *reader) name() (Term, error) {
	if !isLower(r.peek()) {
		return nil, r.syntaxError(r.at)
	}
	name := string(r.skip(isInName))
	r.size += len(name)
	if r.next() == '(' {
		r.at++
		r.above = append(r.above, open{name: name})
		return nil, nil
	}
	if name == "true" || name == "false" {
		return Bool(name == "true"), nil
	}
	return Appl{Name: name}, nil
}

// list reads an empty list, or opens another list and returns no term.
func (r *reader) list() (Term, error) {
	r.at++
	if r.next() == ']' {
		r.at++
		return List{}, nil
	}
	r.above = append(r.above, open{})
	return nil, nil
}

// head reads a term without parts, or the beginning of a term with parts.
func (r *reader) head() (Term, error) {
	b := r.next()
	r.size++
	if r.depth <= len(r.above) {
		r.depth = len(r.above) + 1
	}
	switch {
	case isDigit(b) || b == '-':
		return r.number()
	case b == '"':
		return r.str()
	case b == '[':
		return r.list()
	default:
		return r.name()
	}
}

// close adds a term to the innermost open one, and closes all that end behind it. It returns the last term that is closed.
func (r *reader) close(term Term) (Term, error) {
	for len(r.above) > 0 {
		around := &r.above[len(r.above)-1]
		around.parts = append(around.parts, term)
		b := r.next()
		if b != ',' && b != around.end() {
			return nil, r.syntaxError(r.at)
		}
		r.at++
		if b == ',' {
			break
		}
		term = around.closed()
		r.above = r.above[:len(r.above)-1]
	}
	return term, nil
}

// term reads the whole text.
func (r *reader) term() (Term, error) {
	for {
		term, err := r.head()
		if err == nil && term != nil {
			term, err = r.close(term)
		}
		if err != nil {
			return nil, err
		}
		if len(r.above) > 0 {
			continue
		}
		if r.next(); r.at < len(r.text) {
			return nil, r.syntaxError(r.at)
		}
		return term, nil
	}
}

// Read returns the term that the text reads as. The error is an *Error.
func Read(text []byte) (Term, error) {
	r := reader{text: text}
	term, err := r.term()
	if err == nil {
		err = checkLimits(r.size, r.depth)
	}
	if err != nil {
		return nil, err
	}
	return term, nil
}

// A writer writes terms, and adds up their size.
type writer struct {
	strings.Builder
	size int
}

var (
	namePattern = regexp.MustCompile(`^[a-z][A-Za-z0-9_-]*$`)
	escapes     = strings.NewReplacer(`\`, `\\`, `"`, `\"`, "\n", `\n`, "\r", `\r`, "\t", `\t`)
)

func (w *writer) str(s string) error {
	wrong := strings.IndexFunc(s, func(r rune) bool { return r < ' ' && !strings.ContainsRune("\t\n\r", r) })
	if wrong >= 0 || !utf8.ValidString(s) {
		return failure(Value, 0, "a string of a term can't have these bytes: %.80q", s)
	}
	w.size += len(s)
	w.WriteString(`"` + escapes.Replace(s) + `"`)
	return nil
}

func (w *writer) name(name string) error {
	if !namePattern.MatchString(name) {
		return failure(Value, 0, "%q isn't a name: a name is a lower-case letter, then letters, digits, - and _", name)
	}
	w.size += len(name)
	w.WriteString(name)
	return nil
}

func (w *writer) parts(parts []Term, depth int) error {
	for i, part := range parts {
		if i > 0 {
			w.WriteByte(',')
		}
		if err := w.term(part, depth); err != nil {
			return err
		}
	}
	return nil
}

// between writes parts between brackets.
func (w *writer) between(brackets string, parts []Term, depth int) error {
	w.WriteByte(brackets[0])
	err := w.parts(parts, depth)
	w.WriteByte(brackets[1])
	return err
}

// term writes a term of at most this depth.
func (w *writer) term(term Term, depth int) error {
	if depth == 0 {
		return checkLimits(0, mostDepth+1)
	}
	w.size++
	switch term := term.(type) {
	case Int:
		w.WriteString(strconv.FormatInt(int64(term), 10))
		return nil
	case Str:
		return w.str(string(term))
	case Bool:
		return w.name(strconv.FormatBool(bool(term)))
	case List:
		return w.between("[]", term, depth-1)
	case Appl:
		err := w.name(term.Name)
		if err == nil && len(term.Args) > 0 {
			err = w.between("()", term.Args, depth-1)
		}
		return err
	default:
		return failure(Value, 0, "nil isn't a term")
	}
}

// Write returns the texts of terms that are within the limits together, separated by commas. The error is an *Error.
func Write(terms ...Term) (string, error) {
	var w writer
	err := w.parts(terms, mostDepth)
	if err == nil {
		err = checkLimits(w.size, 0)
	}
	if err != nil {
		return "", err
	}
	return w.String(), nil
}

// ReadLine returns the word of a line from the bus, such as rec-eval, and the terms in it. The text has no newline. The limits apply to
// the terms in the line, without its word. The error is an *Error.
func ReadLine(text []byte) (word string, terms []Term, err error) {
	r := reader{text: text}
	term, err := r.term()
	if err != nil {
		return "", nil, err
	}
	line, _ := term.(Appl)
	switch line.Name {
	case "rec-eval", "rec-do", "rec-ack-event", "rec-terminate":
	default:
		return "", nil, failure(Value, 0, "the line begins with no word of the bus")
	}
	if len(line.Args) == 0 || len(line.Args) > 1 && line.Name != "rec-ack-event" {
		return "", nil, failure(Value, 0, "%s can't have %d terms", line.Name, len(line.Args))
	}
	if err := checkLimits(r.size-1-len(line.Name), r.depth-1); err != nil {
		return "", nil, err
	}
	return line.Name, line.Args, nil
}

// A Tool has handlers for the lines that come in, and methods for the lines that go out. Each goroutine can call these methods.
type Tool struct {
	handlers map[string]func([]Term) Term // by the word, and the name, if there is one
	bus      io.Writer
	writing  sync.Mutex
	left     bool
}

// New returns a tool. The standard output belongs to the bus. From New on, os.Stdout is the standard error, so fmt.Println writes there.
func New() *Tool {
	tool := &Tool{handlers: map[string]func([]Term) Term{}, bus: os.Stdout}
	os.Stdout = os.Stderr
	return tool
}

// These methods add handlers. With a name, the handler is for terms with this name, and its terms are the arguments of the first term of
// the line, then the other terms. With the name "", it is for all other terms, and its terms are those of the line.

// OnEval adds a handler for rec-eval. The tool sends its result as snd-value. If the result is nil, the tool calls Value later.
func (t *Tool) OnEval(name string, handler func(terms []Term) Term) {
	t.handlers["rec-eval "+name] = handler
}

// OnDo adds a handler for rec-do.
func (t *Tool) OnDo(name string, handler func(terms []Term)) { t.add("rec-do ", name, handler) }

// OnAckEvent adds a handler for rec-ack-event. Optional.
func (t *Tool) OnAckEvent(name string, handler func(terms []Term)) {
	t.add("rec-ack-event ", name, handler)
}

// OnTerminate adds a handler for rec-terminate. Optional. Run calls it before it returns.
func (t *Tool) OnTerminate(handler func(reason Term)) {
	t.add("rec-terminate ", "", func(terms []Term) { handler(terms[0]) })
}

func (t *Tool) add(word, name string, handler func([]Term)) {
	t.handlers[word+name] = func(terms []Term) Term {
		handler(terms)
		return nil
	}
}

// Value sends snd-value, after a handler of OnEval returned nil.
func (t *Tool) Value(term Term) error { return t.send("snd-value", term) }

// Event sends snd-event with one term or more.
func (t *Tool) Event(terms ...Term) error {
	if len(terms) == 0 {
		return failure(Value, 0, "snd-event takes one term or more")
	}
	return t.send("snd-event", terms...)
}

// Connect sends snd-connect. If --connect started the tool, this line must come first.
func (t *Tool) Connect(name string) error { return t.send("snd-connect", Name(name)) }

// Disconnect sends snd-disconnect. Then the bus closes the tool's input, and Run returns.
func (t *Tool) Disconnect() error {
	t.left = true
	return t.send("snd-disconnect")
}

// Log writes a line to the standard error.
func (t *Tool) Log(format string, values ...any) {
	fmt.Fprintf(os.Stderr, "%s: %s\n", filepath.Base(os.Args[0]), fmt.Sprintf(format, values...))
}

func (t *Tool) send(word string, terms ...Term) error {
	text, err := Write(terms...)
	if err != nil {
		return err
	}
	line := word
	if len(terms) > 0 {
		line += "(" + text + ")"
	}
	if len(line) > mostLineBytes {
		return failure(Large, 0, "the line is too long: it has %d bytes, the limit is %d", len(line), mostLineBytes)
	}
	t.writing.Lock()
	defer t.writing.Unlock()
	_, err = io.WriteString(t.bus, line+"\n")
	return err
}

// Run handles lines until rec-terminate, or until the input ends. It returns an error if it can't answer a rec-eval.
func (t *Tool) Run() error {
	input := bufio.NewReader(os.Stdin)
	for !t.left {
		text, err := input.ReadBytes('\n')
		if err != nil && len(text) == 0 {
			return nil
		}
		text = bytes.TrimSuffix(text, []byte("\n"))
		word, terms, err := ReadLine(text)
		if err != nil {
			t.Log("ignored a line that no bus sends: %v: %q", err, text)
			continue
		}
		if err := t.handle(word, terms); err != nil {
			return err
		}
		if word == "rec-terminate" {
			return nil
		}
	}
	return nil
}

func (t *Tool) handle(word string, terms []Term) error {
	handler, terms := t.find(word, terms)
	if handler == nil {
		return t.without(word, terms)
	}
	if value := handler(terms); value != nil {
		return t.Value(value)
	}
	return nil
}

// find returns the handler for the name of the first term, else the one for all terms, with the terms that it is called with.
func (t *Tool) find(word string, terms []Term) (func([]Term) Term, []Term) {
	first, _ := terms[0].(Appl)
	if truth, is := terms[0].(Bool); is {
		first.Name = strconv.FormatBool(bool(truth))
	}
	if handler := t.handlers[word+" "+first.Name]; handler != nil && first.Name != "" {
		return handler, append(append([]Term{}, first.Args...), terms[1:]...)
	}
	return t.handlers[word+" "], terms
}

func (t *Tool) without(word string, terms []Term) error {
	text, _ := Write(terms...)
	switch word {
	case "rec-eval":
		return fmt.Errorf("no handler for rec-eval(%s): add one by OnEval", text)
	case "rec-do":
		t.Log("no handler for rec-do(%s): add one by OnDo", text)
	}
	return nil
}

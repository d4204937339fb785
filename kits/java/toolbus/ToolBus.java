package toolbus;

import java.io.BufferedInputStream;
import java.io.ByteArrayOutputStream;
import java.io.FileDescriptor;
import java.io.FileOutputStream;
import java.io.IOException;
import java.io.InputStream;
import java.io.OutputStream;
import java.io.UncheckedIOException;
import java.nio.ByteBuffer;
import java.nio.CharBuffer;
import java.nio.charset.CharacterCodingException;
import java.nio.charset.StandardCharsets;
import java.util.ArrayDeque;
import java.util.ArrayList;
import java.util.Arrays;
import java.util.Deque;
import java.util.HashMap;
import java.util.List;
import java.util.Map;
import java.util.function.Consumer;
import java.util.function.Function;
import java.util.regex.Pattern;
import java.util.stream.Stream;

/**
 * A kit for tools of the ToolBus: terms, and an event loop.
 *
 * <pre>{@code
 * var tool = new ToolBus();
 * tool.onEval("plus", args -> number(args.get(0).asLong() + args.get(1).asLong()));
 * tool.onEval(term -> name("unknown"));
 * tool.run();
 * }</pre>
 */
public final class ToolBus {
    private static final int MOST_SIZE = 65_536;
    private static final int MOST_DEPTH = 64;
    private static final int MOST_LINE_BYTES = 65_536;

    // Terms

    /** A term. A record pattern, {@code instanceof}, or a method {@code as..} takes it apart. */
    public sealed interface Term permits Int, Str, Lst, Appl {
        /** The number. Throws TermException if the term isn't a number. */
        default long asLong() {
            throw wrongType("a number");
        }

        /** The string. Throws TermException if the term isn't a string. */
        default String asString() {
            throw wrongType("a string");
        }

        /** The members. Throws TermException if the term isn't a list. */
        default List<Term> asList() {
            throw wrongType("a list");
        }

        /** The truth. Throws TermException if the term is neither true nor false. */
        default boolean asBoolean() {
            throw wrongType("true or false");
        }

        private TermException wrongType(String wanted) {
            return new TermException(Kind.VALUE, -1, "%s isn't %s".formatted(this, wanted));
        }
    }

    /** A number. */
    public record Int(long value) implements Term {
        @Override
        public long asLong() {
            return value;
        }

        @Override
        public String toString() {
            return write(this);
        }
    }

    /** A string. */
    public record Str(String value) implements Term {
        @Override
        public String asString() {
            return value;
        }

        @Override
        public String toString() {
            return write(this);
        }
    }

    /** A list. */
    public record Lst(List<Term> members) implements Term {
        @Override
        public List<Term> asList() {
            return members;
        }

        @Override
        public String toString() {
            return write(this);
        }
    }

    /** A name with its arguments. true and false are names without arguments. */
    public record Appl(String name, List<Term> args) implements Term {
        @Override
        public boolean asBoolean() {
            if (!args.isEmpty() || !name.equals("true") && !name.equals("false")) {
                return Term.super.asBoolean();
            }
            return name.equals("true");
        }

        @Override
        public String toString() {
            return write(this);
        }
    }

    public static Term number(long value) {
        return new Int(value);
    }

    public static Term string(String value) {
        return new Str(value);
    }

    public static Term truth(boolean value) {
        return name(value ? "true" : "false");
    }

    public static Term list(Term... members) {
        return new Lst(List.of(members));
    }

    public static Term list(List<Term> members) {
        return new Lst(members);
    }

    public static Term name(String name, Term... args) {
        return new Appl(name, List.of(args));
    }

    /** The kind of an error in a term. */
    public enum Kind { SYNTAX, REAL, INTEGER, LARGE, DEEP, VALUE }

    /** An error in the text of a term or of a line, or a value that has no text. */
    public static final class TermException extends RuntimeException {
        private static final long serialVersionUID = 1L;
        private final Kind kind;
        private final int at;

        TermException(Kind kind, int at, String message) {
            super(message);
            this.kind = kind;
            this.at = at;
        }

        public Kind kind() {
            return kind;
        }

        /** Of SYNTAX, REAL and INTEGER: the byte, counted from 0. Of the others: -1. */
        public int at() {
            return at;
        }
    }

    private static void checkLimits(int size, int depth) {
        if (size > MOST_SIZE) {
            throw new TermException(Kind.LARGE, -1, "the term is too large: its size is %d, the limit is %d".formatted(size, MOST_SIZE));
        }
        if (depth > MOST_DEPTH) {
            throw new TermException(Kind.DEEP, -1, "the term is too deep: the limit is %d".formatted(MOST_DEPTH));
        }
    }

    // Reading

    /** Returns the term that the text, in UTF-8, reads as. Throws TermException if the text isn't a term or exceeds a limit. */
    public static Term read(byte[] text) {
        var reader = new Reader(text);
        var term = reader.term();
        checkLimits(reader.size, reader.depth);
        return term;
    }

    /** A list (without a name), or a name with arguments, that isn't closed yet. */
    private record Open(String name, List<Term> parts) {
        int end() {
            return name == null ? ']' : ')';
        }

        Term closed() {
            return name == null ? new Lst(parts) : new Appl(name, parts);
        }
    }

    private interface ByteClass {
        boolean has(int b);
    }

    /** Reads one term from left to right. It doesn't recurse, because a text can nest deeper than the stack. */
    private static final class Reader {
        private final byte[] text;
        private final Deque<Open> above = new ArrayDeque<>();
        private int at;
        private int size;
        private int depth;

        Reader(byte[] text) {
            this.text = text;
        }

        private TermException syntaxError(int at) {
            var found = at < text.length ? "byte 0x%02x".formatted(text[at]) : "the end of the text";
            return new TermException(Kind.SYNTAX, at, "syntax error at byte %d: found %s".formatted(at, found));
        }

        /** Returns the next byte, or -1 at the end. */
        private int peek() {
            return at < text.length ? text[at] & 0xff : -1;
        }

        /** Skips whitespace, and returns the next byte, or -1 at the end. */
        private int next() {
            skip(b -> b == ' ' || b == '\t' || b == '\n' || b == '\r');
            return peek();
        }

        /** Moves past all bytes of a class, and returns whether there are any. */
        private boolean skip(ByteClass bytes) {
            int start = at;
            while (at < text.length && bytes.has(text[at] & 0xff)) {
                at++;
            }
            return at > start;
        }

        private String since(int start) {
            return new String(text, start, at - start, StandardCharsets.US_ASCII);
        }

        private Term number() {
            int start = at;
            if (peek() == '-') {
                at++;
            }
            if (!skip(Reader::isDigit)) {
                throw syntaxError(at);
            }
            if (peek() == '.' && at + 1 < text.length && isDigit(text[at + 1])) {
                throw new TermException(Kind.REAL, start, "real number at byte %d: a number must be whole".formatted(start));
            }
            try {
                return new Int(Long.parseLong(since(start)));
            } catch (NumberFormatException wrong) {
                throw new TermException(Kind.INTEGER, start, "number out of range at byte %d: the range is %d to %d"
                    .formatted(start, Long.MIN_VALUE, Long.MAX_VALUE));
            }
        }

        private static boolean isDigit(int b) {
            return '0' <= b && b <= '9';
        }

        private static boolean isLower(int b) {
            return 'a' <= b && b <= 'z';
        }

        private static boolean isInName(int b) {
            return isLower(b) || 'A' <= b && b <= 'Z' || isDigit(b) || b == '-' || b == '_';
        }

        private static boolean isPlain(int b) {
            return b == '\t' || ' ' <= b && b <= 0x7f && b != '"' && b != '\\';
        }

        /** Reads an escape, and returns the byte that it means. */
        private int escape() {
            at++;
            int meant = switch (peek()) {
                case '"' -> '"';
                case '\\' -> '\\';
                case 'n' -> '\n';
                case 'r' -> '\r';
                case 't' -> '\t';
                default -> throw syntaxError(at);
            };
            at++;
            return meant;
        }

        /** Moves past a character of more than one byte. The ranges are those of well-formed UTF-8. */
        private void wide() {
            int first = peek();
            if (first < 0xc2 || first > 0xf4) {
                throw syntaxError(at);
            }
            int least = first == 0xe0 ? 0xa0 : first == 0xf0 ? 0x90 : 0x80;
            int most = first == 0xed ? 0x9f : first == 0xf4 ? 0x8f : 0xbf;
            at++;
            for (int more = first >= 0xf0 ? 3 : first >= 0xe0 ? 2 : 1; more > 0; more--) {
                if (peek() < least || peek() > most) {
                    throw syntaxError(at);
                }
                at++;
                least = 0x80;
                most = 0xbf;
            }
        }

        private Term string() {
            var contents = new ByteArrayOutputStream();
            at++;
            while (peek() != '"') {
                int start = at;
                if (peek() == '\\') {
                    contents.write(escape());
                    continue;
                }
                if (peek() >= 0x80) {
                    wide();
                } else if (!skip(Reader::isPlain)) {
                    throw syntaxError(at);
                }
                contents.write(text, start, at - start);
            }
            at++;
            size += contents.size();
            return new Str(contents.toString(StandardCharsets.UTF_8));
        }

        /** Reads an empty list. Or opens another list, and returns null. */
        private Term list() {
            at++;
            if (next() == ']') {
                at++;
                return new Lst(List.of());
            }
            above.push(new Open(null, new ArrayList<>()));
            return null;
        }

        /** Reads a name. If arguments follow, opens them, and returns null. */
        private Term name() {
            int start = at;
            if (!isLower(peek())) {
                throw syntaxError(at);
            }
            skip(Reader::isInName);
            var name = since(start);
            size += name.length();
            if (next() != '(') {
                return new Appl(name, List.of());
            }
            at++;
            above.push(new Open(name, new ArrayList<>()));
            return null;
        }

        /** Reads a term without parts. Or reads the beginning of a term with parts, and returns null. */
        private Term head() {
            int b = next();
            size++;
            depth = Math.max(depth, above.size() + 1);
            if (isDigit(b) || b == '-') {
                return number();
            }
            return b == '"' ? string() : b == '[' ? list() : name();
        }

        /** Adds a term to the innermost open one, and closes all that end behind it. Returns the last term that is closed. */
        private Term close(Term term) {
            while (!above.isEmpty()) {
                above.peek().parts().add(term);
                int b = next();
                if (b != ',' && b != above.peek().end()) {
                    throw syntaxError(at);
                }
                at++;
                if (b == ',') {
                    break;
                }
                term = above.pop().closed();
            }
            return term;
        }

        /** Reads the whole text. */
        Term term() {
            Term term;
            do {
                term = head();
                if (term != null) {
                    term = close(term);
                }
            } while (!above.isEmpty());
            if (next() != -1) {
                throw syntaxError(at);
            }
            return term;
        }
    }

    // Writing

    /** Returns the text of a term. Throws TermException if the value isn't a term or exceeds a limit. */
    public static String write(Term term) {
        return write(Arrays.asList(term));
    }

    /** Returns the texts of terms that are within the limits together, separated by commas. */
    private static String write(List<Term> terms) {
        var writer = new Writer();
        writer.parts(terms, MOST_DEPTH);
        checkLimits(writer.size, 0);
        return writer.text.toString();
    }

    /** Writes terms, and adds up their size. */
    private static final class Writer {
        private static final Pattern NAME = Pattern.compile("[a-z][A-Za-z0-9_-]*");
        private static final Pattern NO_STRING = Pattern.compile("[\\x00-\\x08\\x0b\\x0c\\x0e-\\x1f]");
        private final StringBuilder text = new StringBuilder();
        private int size;

        /** Writes a term of at most this depth. */
        private void term(Term term, int depth) {
            if (depth == 0) {
                checkLimits(0, MOST_DEPTH + 1);
            }
            size++;
            if (term instanceof Int number) {
                text.append(number.value());
            } else if (term instanceof Str string) {
                string(string.value());
            } else if (term instanceof Lst list) {
                between('[', list.members(), ']', depth - 1);
            } else if (term instanceof Appl appl) {
                name(appl.name());
                if (!appl.args().isEmpty()) {
                    between('(', appl.args(), ')', depth - 1);
                }
            } else {
                throw new TermException(Kind.VALUE, -1, "null isn't a term");
            }
        }

        private void between(char begin, List<Term> parts, char end, int depth) {
            text.append(begin);
            parts(parts, depth);
            text.append(end);
        }

        private void parts(List<Term> parts, int depth) {
            var comma = "";
            for (var part : parts) {
                text.append(comma);
                term(part, depth);
                comma = ",";
            }
        }

        private void name(String name) {
            if (!NAME.matcher(name).matches()) {
                throw new TermException(Kind.VALUE, -1,
                    "\"%s\" isn't a name: a name is a lower-case letter, then letters, digits, - and _".formatted(name));
            }
            size += name.length();
            text.append(name);
        }

        private void string(String string) {
            if (NO_STRING.matcher(string).find()) {
                throw new TermException(Kind.VALUE, -1, "a string of a term can't have its control characters");
            }
            size += utf8(string).length;
            text.append('"');
            for (char character : string.toCharArray()) {
                switch (character) {
                    case '"', '\\' -> text.append('\\').append(character);
                    case '\n' -> text.append("\\n");
                    case '\r' -> text.append("\\r");
                    case '\t' -> text.append("\\t");
                    default -> text.append(character);
                }
            }
            text.append('"');
        }
    }

    /** Returns the bytes of a string. Throws TermException if the string has half of a surrogate pair. */
    private static byte[] utf8(String string) {
        try {
            ByteBuffer bytes = StandardCharsets.UTF_8.newEncoder().encode(CharBuffer.wrap(string));
            return Arrays.copyOf(bytes.array(), bytes.limit());
        } catch (CharacterCodingException wrong) {
            throw new TermException(Kind.VALUE, -1, "a string of a term must be well-formed");
        }
    }

    // Lines

    /** A line from the bus: its word, as rec-eval, and the terms in it. */
    public record Line(String word, List<Term> terms) {
        @Override
        public String toString() {
            return word + "(" + write(terms) + ")";
        }
    }

    /**
     * Returns the line from the bus that a text without a newline is. Throws TermException if the text isn't such a line. The limits apply
     * to the terms in the line, without its word.
     */
    public static Line readLine(byte[] text) {
        var reader = new Reader(text);
        var term = reader.term();
        if (!(term instanceof Appl line) || !List.of("rec-eval", "rec-do", "rec-ack-event", "rec-terminate").contains(line.name())) {
            throw new TermException(Kind.VALUE, -1, "the line begins with no word of the bus");
        }
        int count = line.args().size();
        if (count == 0 || count > 1 && !line.name().equals("rec-ack-event")) {
            throw new TermException(Kind.VALUE, -1, "%s can't have %d terms".formatted(line.name(), count));
        }
        checkLimits(reader.size - 1 - line.name().length(), reader.depth - 1);
        return new Line(line.name(), line.args());
    }

    // The event loop

    private record Handlers(Map<String, Function<List<Term>, Term>> named, Map<String, Function<List<Term>, Term>> general) {}

    private final Handlers handlers = new Handlers(new HashMap<>(), new HashMap<>());
    private final InputStream input = new BufferedInputStream(System.in);
    private final OutputStream output = new FileOutputStream(FileDescriptor.out);
    private boolean ended;
    private Term reason;

    /** Makes a tool. The standard output belongs to the bus. From here on, System.out writes to the standard error. */
    public ToolBus() {
        System.setOut(System.err);
    }

    // These methods add handlers. With a name, the handler is for terms with this name, and it is called with the arguments of the first
    // term of the line, then the other terms. Without a name, the handler is for all other terms.

    /** Adds a handler for rec-eval. The kit sends its result as snd-value. If the result is null, the tool calls value later. */
    public void onEval(String name, Function<List<Term>, Term> handler) {
        handlers.named().put("rec-eval " + name, handler);
    }

    public void onEval(Function<Term, Term> handler) {
        handlers.general().put("rec-eval", terms -> handler.apply(terms.get(0)));
    }

    /** Adds a handler for rec-do. */
    public void onDo(String name, Consumer<List<Term>> handler) {
        handlers.named().put("rec-do " + name, withoutResult(handler));
    }

    public void onDo(Consumer<Term> handler) {
        handlers.general().put("rec-do", withoutResult(terms -> handler.accept(terms.get(0))));
    }

    /** Adds a handler for rec-ack-event. Optional. */
    public void onAckEvent(String name, Consumer<List<Term>> handler) {
        handlers.named().put("rec-ack-event " + name, withoutResult(handler));
    }

    public void onAckEvent(Consumer<List<Term>> handler) {
        handlers.general().put("rec-ack-event", withoutResult(handler));
    }

    /** Adds a handler for rec-terminate, which the kit calls before run returns. Optional. */
    public void onTerminate(Consumer<Term> handler) {
        handlers.general().put("rec-terminate", withoutResult(terms -> handler.accept(terms.get(0))));
    }

    private static Function<List<Term>, Term> withoutResult(Consumer<List<Term>> handler) {
        return terms -> {
            handler.accept(terms);
            return null;
        };
    }

    // These methods send lines. Each thread can call them.

    /** Sends snd-value, after a handler of onEval returned null. */
    public void value(Term term) {
        send("snd-value(" + write(term) + ")");
    }

    /** Sends snd-event with one term or more. */
    public void event(Term... terms) {
        if (terms.length == 0) {
            throw new TermException(Kind.VALUE, -1, "snd-event takes one term or more");
        }
        send("snd-event(" + write(Arrays.asList(terms)) + ")");
    }

    /** Sends snd-connect. If --connect started the tool, this line must come first. */
    public void connect(String name) {
        send("snd-connect(" + write(name(name)) + ")");
    }

    /** Sends snd-disconnect. Then the bus closes the tool's input, and run returns. */
    public void disconnect() {
        send("snd-disconnect");
        ended = true;
    }

    /** Writes a line to the standard error. */
    public void log(String text) {
        System.err.println("tool: " + text);
    }

    private synchronized void send(String line) {
        var bytes = utf8(line + "\n");
        if (bytes.length - 1 > MOST_LINE_BYTES) {
            throw new TermException(Kind.LARGE, -1,
                "the line is too long: it has %d bytes, the limit is %d".formatted(bytes.length - 1, MOST_LINE_BYTES));
        }
        try {
            output.write(bytes);
        } catch (IOException gone) {
            throw new UncheckedIOException("the bus has closed the tool's output", gone);
        }
    }

    /** Handles lines until rec-terminate, and returns its term. If the input ends first, returns null. Passes on errors in handlers. */
    public Term run() throws IOException {
        for (var text = nextLine(); text != null; text = ended ? null : nextLine()) {
            Line line;
            try {
                line = readLine(text);
            } catch (TermException wrong) {
                log("ignored a line that no bus sends: " + wrong.getMessage() + ": " + new String(text, StandardCharsets.UTF_8));
                continue;
            }
            handle(line);
        }
        return reason;
    }

    /** Returns the next line without its newline, or null at the end of the input. */
    private byte[] nextLine() throws IOException {
        var line = new ByteArrayOutputStream();
        int b = input.read();
        if (b < 0) {
            return null;
        }
        for (; b >= 0 && b != '\n'; b = input.read()) {
            line.write(b);
        }
        return line.toByteArray();
    }

    private void handle(Line line) {
        if (line.word().equals("rec-terminate")) {
            ended = true;
            reason = line.terms().get(0);
        }
        if (line.terms().get(0) instanceof Appl first && handlers.named().containsKey(line.word() + " " + first.name())) {
            var others = line.terms().stream().skip(1);
            answer(handlers.named().get(line.word() + " " + first.name()).apply(Stream.concat(first.args().stream(), others).toList()));
        } else if (handlers.general().containsKey(line.word())) {
            answer(handlers.general().get(line.word()).apply(line.terms()));
        } else if (line.word().equals("rec-eval")) {
            throw new IllegalStateException("no handler for " + line + ": add one by onEval");
        } else if (line.word().equals("rec-do")) {
            log("no handler for " + line + ": add one by onDo");
        }
    }

    private void answer(Term value) {
        if (value != null) {
            value(value);
        }
    }
}

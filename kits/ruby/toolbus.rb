# frozen_string_literal: true

# A kit for tools of the ToolBus in Ruby: terms, and an event loop.
#
#     require_relative 'toolbus'
#
#     tool = ToolBus::Tool.new
#     tool.on_eval(:plus) { |a, b| a + b }
#     tool.on_eval { :unknown }
#     tool.run
#
# A term is a Ruby value:
#
#     a number                  Integer
#     a string                  String
#     true, false               true, false
#     a list                    Array
#     a name with arguments     ToolBus::Appl.new(:plus, 1, 2)
#     any other name            Symbol, such as :unknown or :"look-up"
require 'strscan'

module ToolBus
  MOST_SIZE = 65_536
  MOST_DEPTH = 64
  MOST_LINE_BYTES = 65_536
  NUMBERS = (-(2**63)..2**63 - 1).freeze

  # A handler of on_eval returns this if the tool calls value later.
  LATER = Object.new.freeze

  # A name with its arguments. In a pattern, `in [:plus, a, b]` matches Appl.new(:plus, a, b).
  class Appl
    attr_reader :name, :args

    def initialize(name, *args)
      @name = name.to_sym
      @args = args
    end

    def ==(other)
      other.is_a?(Appl) && [name, args] == [other.name, other.args]
    end
    alias eql? ==

    def hash
      [name, args].hash
    end

    def deconstruct
      [name, *args]
    end

    def to_s
      ToolBus.write_term(self)
    end
    alias inspect to_s
  end

  # An error in the text of a term or of a line, or a value that has no text.
  #
  # The kind is :syntax, :real, :integer, :large, :deep or :value. For the first three, at is the byte, counted from 0.
  class TermError < StandardError
    attr_reader :kind, :at

    def initialize(kind, message, at = nil)
      super(message)
      @kind = kind
      @at = at
    end
  end

  class << self
    # Returns the term that the text reads as. Raises TermError if the text isn't a term or exceeds a limit.
    def read_term(text)
      reader = Reader.new(text)
      term = reader.term
      check_limits(reader.size, reader.depth)
      term
    end

    # Returns the text of a term. Raises TermError if the value isn't a term or exceeds a limit.
    def write_term(term)
      write_terms([term])
    end

    # Returns the texts of terms that are within the limits together, separated by commas.
    def write_terms(terms)
      writer = Writer.new
      text = writer.parts(terms, MOST_DEPTH)
      check_limits(writer.size, 0)
      text
    end

    def check_limits(size, depth)
      raise TermError.new(:large, "the term is too large: its size is #{size}, the limit is #{MOST_SIZE}") if size > MOST_SIZE
      raise TermError.new(:deep, "the term is too deep: the limit is #{MOST_DEPTH}") if depth > MOST_DEPTH
    end
  end

  # Reads one term from left to right. It doesn't recurse, because a text can nest deeper than the stack.
  class Reader
    Open = Struct.new(:name, :parts) do
      def end
        name ? ')' : ']'
      end

      def closed
        name ? Appl.new(name, *parts) : parts
      end
    end

    ESCAPED = { '"' => '"', '\\' => '\\', 'n' => "\n", 'r' => "\r", 't' => "\t" }.freeze
    WIDE = /[\xc2-\xdf][\x80-\xbf]|\xe0[\xa0-\xbf][\x80-\xbf]|\xed[\x80-\x9f][\x80-\xbf]|[\xe1-\xec\xee\xef][\x80-\xbf]{2}
            |\xf0[\x90-\xbf][\x80-\xbf]{2}|\xf4[\x80-\x8f][\x80-\xbf]{2}|[\xf1-\xf3][\x80-\xbf]{3}/nx
    WIDE_BEGUN = /[\xc2-\xdf]|\xe0[\xa0-\xbf]?|\xed[\x80-\x9f]?|[\xe1-\xec\xee\xef][\x80-\xbf]?
                  |\xf0(?:[\x90-\xbf][\x80-\xbf]?)?|\xf4(?:[\x80-\x8f][\x80-\xbf]?)?|[\xf1-\xf3][\x80-\xbf]{0,2}|/nx

    attr_reader :size, :depth

    def initialize(text)
      @text = StringScanner.new(text.b)
      @size = 0
      @depth = 0
    end

    # Reads the whole text.
    def term
      above = []
      term = nil
      loop do
        @depth = [@depth, above.length + 1].max
        head = self.head
        head.is_a?(Open) ? above.push(head) : term = close(head, above)
        break if above.empty?
      end
      syntax_error(@text.pos) if next_byte
      term
    end

    private

    def syntax_error(at)
      byte = @text.string.byteslice(at, 1)
      raise TermError.new(:syntax, "syntax error at byte #{at}: found #{byte.empty? ? 'the end of the text' : byte.inspect}", at)
    end

    # Skips whitespace, and returns the next byte, or nil at the end.
    def next_byte
      @text.skip(/[\t\n\r ]*/)
      @text.check(/./mn)
    end

    # Reads a term without parts, or the beginning of a term with parts.
    def head
      @size += 1
      case next_byte
      when /[-0-9]/ then number
      when '"' then string
      when '[' then list
      else name
      end
    end

    def number
      at = @text.pos
      digits = @text.scan(/-?[0-9]+/) or syntax_error(at + 1)
      raise TermError.new(:real, "real number at byte #{at}: a number must be whole", at) if @text.check(/\.[0-9]/)
      return digits.to_i if NUMBERS.cover?(digits.to_i)

      raise TermError.new(:integer, "number out of range at byte #{at}: the range is #{NUMBERS.min} to #{NUMBERS.max}", at)
    end

    def string
      @text.getch
      string = ''.b
      string << piece until @text.skip(/"/)
      @size += string.bytesize
      string.force_encoding(Encoding::UTF_8)
    end

    # Reads plain characters, an escape, or a character of more than one byte.
    def piece
      plain = @text.scan(/[\t\x20!#-\x5b\x5d-\x7f]+/n) || @text.scan(WIDE)
      return plain if plain

      at = @text.pos + (@text.skip(/\\/) || @text.check(WIDE_BEGUN).bytesize)
      meant = @text.pos == at && ESCAPED[@text.getch]
      meant || syntax_error(at)
    end

    def list
      @text.getch
      return Open.new(nil, []) unless next_byte == ']'

      @text.getch
      []
    end

    # Reads a name, and the bracket that begins its arguments.
    def name
      name = @text.scan(/[a-z][A-Za-z0-9_-]*/) or syntax_error(@text.pos)
      @size += name.bytesize
      if next_byte == '('
        @text.getch
        return Open.new(name.to_sym, [])
      end
      %w[true false].include?(name) ? name == 'true' : name.to_sym
    end

    # Adds a term to the innermost open one, and closes all that end behind it. Returns the last term that is closed.
    def close(term, above)
      until above.empty?
        above.last.parts << term
        byte = next_byte
        syntax_error(@text.pos) unless [',', above.last.end].include?(byte)
        @text.getch
        break if byte == ','

        term = above.pop.closed
      end
      term
    end
  end

  # Writes terms, and adds up their size.
  class Writer
    NO_STRING = /[\x00-\x08\x0b\x0c\x0e-\x1f]/
    ESCAPES = { '"' => '\"', '\\' => '\\\\', "\n" => '\n', "\r" => '\r', "\t" => '\t' }.freeze

    attr_reader :size

    def initialize
      @size = 0
    end

    def parts(parts, depth)
      parts.map { |part| term(part, depth) }.join(',')
    end

    # Returns the text of a term of at most this depth.
    def term(term, depth)
      ToolBus.check_limits(0, MOST_DEPTH + 1) if depth.zero?
      @size += 1
      case term
      when Integer then number(term)
      when String then string(term)
      when true, false, Symbol then name(term.to_s)
      when Array then "[#{parts(term, depth - 1)}]"
      when Appl then appl(term, depth)
      else raise TermError.new(:value, "#{term.inspect} isn't a term: use Integer, String, true, false, Symbol, Array or Appl")
      end
    end

    private

    def number(number)
      return number.to_s if NUMBERS.cover?(number)

      raise TermError.new(:value, "#{number} is out of range: the range is #{NUMBERS.min} to #{NUMBERS.max}")
    end

    def string(string)
      text = string.encoding == Encoding::BINARY ? string.dup.force_encoding(Encoding::UTF_8) : string.encode(Encoding::UTF_8)
      raise TermError.new(:value, "a string must be well-formed: #{string.inspect}") unless text.valid_encoding?

      wrong = NO_STRING.match(text)
      raise TermError.new(:value, "a string can't have the character #{wrong[0].inspect}") if wrong

      @size += text.bytesize
      "\"#{text.gsub(/["\\\n\r\t]/, ESCAPES)}\""
    rescue EncodingError => error
      raise TermError.new(:value, error.message)
    end

    def name(name)
      unless name.match?(/\A[a-z][A-Za-z0-9_-]*\z/)
        raise TermError.new(:value, "#{name.inspect} isn't a name: a name is a lower-case letter, then letters, digits, - and _")
      end

      @size += name.bytesize
      name
    end

    def appl(term, depth)
      name = name(term.name.to_s)
      term.args.empty? ? name : "#{name}(#{parts(term.args, depth - 1)})"
    end
  end

  # A line from the bus: its word, as 'rec-eval', and the terms in it.
  Line = Struct.new(:word, :terms) do
    # Returns the line that a text without a newline is. Raises TermError if the text isn't such a line. The limits apply to the terms in
    # the line, without its word.
    def self.read(text)
      reader = Reader.new(text)
      term = reader.term
      word, terms = term.is_a?(Appl) ? [term.name.to_s, term.args] : ['', []]
      unless %w[rec-eval rec-do rec-ack-event rec-terminate].include?(word)
        raise TermError.new(:value, 'the line begins with no word of the bus')
      end
      unless terms.length == 1 || (word == 'rec-ack-event' && terms.length > 1)
        raise TermError.new(:value, "#{word} can't have #{terms.length} terms")
      end

      ToolBus.check_limits(reader.size - 1 - word.bytesize, reader.depth - 1)
      new(word, terms)
    end

    def to_s
      "#{word}(#{ToolBus.write_terms(terms)})"
    end
  end

  # A tool on the bus: handlers for the lines that come in, and calls for the lines that go out.
  #
  # on_eval(:plus) { .. } adds a handler for terms with this name, and on_eval { .. } one for all other terms. The first is called with the
  # arguments of the first term, then the other terms. The second is called with the terms of the line.
  #
  # From Tool.new on, puts and print write to the standard error, the standard input is empty, and programs that the tool starts inherit
  # neither pipe of the bus.
  class Tool
    def initialize
      @handlers = Hash.new { |handlers, word| handlers[word] = {} }
      @ended = false
      @writing = Mutex.new
      @input = $stdin.dup.binmode
      @output = $stdout.dup.binmode
      @output.sync = true
      $stdin.reopen(File::NULL)
      $stdout.reopen($stderr)
      $stdout.sync = true
    end

    # Adds a handler for rec-eval. The kit sends its result as snd-value, unless it is LATER.
    def on_eval(name = nil, &handler)
      @handlers['rec-eval'][name&.to_sym] = handler
    end

    # Adds a handler for rec-do.
    def on_do(name = nil, &handler)
      @handlers['rec-do'][name&.to_sym] = handler
    end

    # Adds a handler for rec-ack-event. Optional.
    def on_ack_event(name = nil, &handler)
      @handlers['rec-ack-event'][name&.to_sym] = handler
    end

    # Adds a handler for rec-terminate, which the kit calls before the loop ends. Optional.
    def on_terminate(name = nil, &handler)
      @handlers['rec-terminate'][name&.to_sym] = handler
    end

    # These methods send lines. Every thread can call them.

    # Sends snd-value, after a handler of on_eval returned LATER.
    def value(term)
      send_line("snd-value(#{ToolBus.write_term(term)})")
    end

    # Sends snd-event with one term or more.
    def event(*terms)
      raise TermError.new(:value, 'snd-event takes one term or more') if terms.empty?

      send_line("snd-event(#{ToolBus.write_terms(terms)})")
    end

    # Sends snd-connect. If --connect started the tool, this line must come first.
    def connect(name)
      send_line("snd-connect(#{ToolBus.write_term(name.to_sym)})")
    end

    # Sends snd-disconnect. Then the bus closes the tool's input, and the loop ends.
    def disconnect
      send_line('snd-disconnect')
      @ended = true
    end

    # Writes a line to the standard error.
    def log(*values)
      warn("#{File.basename($PROGRAM_NAME)}: #{values.join(' ')}")
    end

    # Handles lines until rec-terminate, and returns its term. If the input ends first, returns nil. Passes on errors in handlers.
    def run
      until @ended || (text = @input.gets("\n", chomp: true)).nil?
        line = read(text)
        handle(line) if line
      end
      @reason
    rescue Errno::EPIPE
      log("the bus has closed the tool's output")
    end

    private

    def send_line(line)
      if line.bytesize > MOST_LINE_BYTES
        raise TermError.new(:large, "the line is too long: it has #{line.bytesize} bytes, the limit is #{MOST_LINE_BYTES}")
      end

      @writing.synchronize { @output.write("#{line}\n") }
    end

    def read(text)
      Line.read(text)
    rescue TermError => error
      log("ignored a line that no bus sends: #{error.message}: #{text.inspect}")
      nil
    end

    def handle(line)
      case line.word
      when 'rec-eval' then answer(line)
      when 'rec-do' then call(line) { log("no handler for #{line}: add one by on_do") }
      when 'rec-ack-event' then call(line) { nil }
      else
        @ended = true
        @reason = line.terms.first
        call(line) { nil }
      end
    end

    def answer(line)
      answer = call(line) { raise "no handler for #{line}: add one by on_eval" }
      value(answer) unless answer.equal?(LATER)
    end

    # Calls the handler for the name of the first term, else the one for all terms, else the block.
    def call(line, &otherwise)
      first, *others = line.terms
      name, args = first.is_a?(Appl) ? [first.name, first.args] : [[true, false].include?(first) ? first.to_s.to_sym : first, []]
      named = name.is_a?(Symbol) && @handlers[line.word][name]
      return named.call(*args, *others) if named

      general = @handlers[line.word][nil]
      general ? general.call(*line.terms) : otherwise.call
    end
  end
end

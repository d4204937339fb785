# Reads texts, a line each in hexadecimal, and says what each reads as: with the argument `terms` in the words of terms.txt, with
# `lines` in those of to-tool.txt. With `refuse NAME`, sends the wrong line of this name in kits/test.
# With `bare`, is a tool without handlers.
require_relative '../ruby/toolbus'
include ToolBus

def term_answer(bytes)
  "term\t#{ToolBus.write_term(ToolBus.read_term(bytes)).unpack1('H*')}"
rescue TermError => error
  "#{[error.kind, error.at].compact.join(' ')}\t"
end

def line_answer(bytes)
  line = Line.read(bytes)
  "#{line.word}\t#{line.to_s.unpack1('H*')}"
rescue TermError
  "bad\t"
end

def refuse(tool, wrong)
  deep = (1..64).reduce(1) { |term, _| [term] }
  around = []
  around << around
  {
    'longest' => -> { tool.event('a' * 65_523) },
    'control' => -> { tool.event("\x01") },
    'unicode' => -> { tool.event("a\xff") },
    'upper-name' => -> { tool.event(:A) },
    'blank-name' => -> { tool.event(Appl.new('a b', 1)) },
    'empty-name' => -> { tool.event(:'') },
    'newline-name' => -> { tool.event(:"a\n") },
    'real' => -> { tool.event(1.5) },
    'above' => -> { tool.event(2**63) },
    'below' => -> { tool.event(-(2**63) - 1) },
    'deep' => -> { tool.value(deep) },
    'cycle' => -> { tool.value(around) },
    'long' => -> { tool.event('a' * 65_524) },
    'large' => -> { tool.event('a' * 65_536) },
    'connect-upper' => -> { tool.connect('Ed') },
    'connect-term' => -> { tool.connect('ed(1)') },
    'none' => -> { tool.event },
    'no-term' => -> { tool.event(nil) },
    'no-part' => -> { tool.event([1, { a: 1 }]) }
  }.fetch(wrong).call
rescue TermError => error
  warn error.kind
  exit 1
end

case ARGV
in ['refuse', wrong] then refuse(Tool.new, wrong)
in ['bare'] then Tool.new.run
in [word]
  $stdin.each_line(chomp: true) do |text|
    puts word == 'lines' ? line_answer([text].pack('H*')) : term_answer([text].pack('H*'))
  end
end

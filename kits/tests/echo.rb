# Says what it was told.
require_relative '../ruby/toolbus'
include ToolBus

tool = Tool.new
tool.on_eval { |term| term }
tool.on_eval('look-up') { |word, place| Appl.new(:found, word, place) }
tool.on_eval(:status) do
  Thread.new { tool.value(:ready) }
  LATER
end
tool.on_do { |term| tool.event(Appl.new(:did, term)) }
tool.on_do(:say) do |text|
  puts text
  tool.event(:said)
end
tool.on_ack_event { |*terms| tool.event(Appl.new(:acked, terms)) }
tool.on_ack_event(:bid) { |price, *others| tool.event(Appl.new('bid-acked', price, others)) }
tool.on_terminate { |reason| tool.event(Appl.new(:ends, reason)) }
tool.run

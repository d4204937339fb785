# A tool that adds two numbers.
require_relative 'toolbus'

tool = ToolBus::Tool.new
tool.on_eval(:plus) { |a, b| a + b }
tool.on_eval { :unknown }
tool.run

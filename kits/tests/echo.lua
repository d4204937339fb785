-- Says what it was told.
local toolbus = dofile((arg[0]:match("^.*/") or "") .. "../lua/toolbus.lua")
local appl = toolbus.appl

local tool = toolbus.tool()
tool:on_eval(function(term) return term end)
tool:on_eval("look-up", function(word, place) return appl("found", word, place) end)
tool:on_eval("status", function()
  tool:value(appl("ready"))
  return toolbus.LATER
end)
tool:on_do(function(term) tool:event(appl("did", term)) end)
tool:on_do("say", function(text)
  print(text)
  tool:event(appl("said"))
end)
tool:on_ack_event(function(...) tool:event(appl("acked", {...})) end)
tool:on_ack_event("bid", function(price, ...) tool:event(appl("bid-acked", price, {...})) end)
tool:on_terminate(function(reason) tool:event(appl("ends", reason)) end)
tool:run()

-- A tool that adds two numbers.
local toolbus = dofile((arg[0]:match("^.*/") or "") .. "toolbus.lua")

local tool = toolbus.tool()
tool:on_eval("plus", function(a, b) return a + b end)
tool:on_eval(function() return toolbus.appl("unknown") end)
tool:run()

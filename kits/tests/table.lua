-- Reads texts, a line each in hexadecimal, and says what each reads as: with the argument `terms` in the words of terms.txt, with
-- `lines` in those of to-tool.txt. With `refuse NAME`, sends the wrong line of this name in kits/test.
-- With `bare`, is a tool without handlers.
local toolbus = dofile((arg[0]:match("^.*/") or "") .. "../lua/toolbus.lua")
local appl = toolbus.appl

local function hexadecimal(text) return (text:gsub(".", function(byte) return ("%02x"):format(byte:byte()) end)) end

local function decoded(text) return (text:gsub("..", function(digits) return string.char(tonumber(digits, 16)) end)) end

local answers = {}

function answers.terms(bytes)
  local is_term, term = pcall(toolbus.read_term, bytes)
  if is_term then return "term\t" .. hexadecimal(toolbus.write_term(term)) end
  assert(toolbus.is_term_error(term), term)
  return term.kind .. (term.at and " " .. term.at or "") .. "\t"
end

function answers.lines(bytes)
  local is_line, word, terms = pcall(toolbus.read_line, bytes)
  if not is_line then return "bad\t" end
  local texts = {}
  for index, term in ipairs(terms) do texts[index] = toolbus.write_term(term) end
  return word .. "\t" .. hexadecimal(word .. "(" .. table.concat(texts, ",") .. ")")
end

local function refuse(wrong)
  local tool = toolbus.tool()
  local deep = 1
  for _ = 1, 64 do deep = {deep} end
  local around = {}
  around[1] = around
  local sends = {
    ["longest"] = function() tool:event(("a"):rep(65523)) end,
    ["control"] = function() tool:event("\1") end,
    ["unicode"] = function() tool:event("a\xed\xa0\x80") end,
    ["upper-name"] = function() tool:event(appl("A")) end,
    ["blank-name"] = function() tool:event(appl("a b")) end,
    ["empty-name"] = function() tool:event(appl("")) end,
    ["newline-name"] = function() tool:event(appl("a\n")) end,
    ["real"] = function() tool:event(4 / 2) end,
    ["above"] = function() tool:event(2 ^ 63) end,
    ["below"] = function() tool:event(-(2 ^ 63)) end,
    ["deep"] = function() tool:value(deep) end,
    ["cycle"] = function() tool:value(around) end,
    ["long"] = function() tool:event(("a"):rep(65524)) end,
    ["large"] = function() tool:event(("a"):rep(65536)) end,
    ["connect-upper"] = function() tool:connect("Ed") end,
    ["connect-term"] = function() tool:connect("ed(1)") end,
    ["none"] = function() tool:event() end,
    ["no-term"] = function() tool:event(nil) end,
    ["no-part"] = function() tool:event({1, print}) end,
  }
  local sent, problem = pcall(sends[wrong])
  if not sent then
    io.stderr:write(problem.kind or problem, "\n")
    os.exit(1)
  end
end

if arg[1] == "refuse" then
  refuse(arg[2])
elseif arg[1] == "bare" then
  toolbus.tool():run()
else
  for text in io.stdin:lines() do io.stdout:write(answers[arg[1]](decoded(text)), "\n") end
end

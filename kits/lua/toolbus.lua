--- A kit for tools of the ToolBus in Lua 5.3 or later: terms, and an event loop.
--
--     local toolbus = dofile((arg[0]:match("^.*/") or "") .. "toolbus.lua")
--
--     local tool = toolbus.tool()
--     tool:on_eval("plus", function(a, b) return a + b end)
--     tool:on_eval(function() return toolbus.appl("unknown") end)
--     tool:run()
--
-- A term is a Lua value:
--
--     a number          an integer
--     a string          a string, in UTF-8
--     true, false       a boolean
--     a list            a table {1, 2, 3}
--     any other name    toolbus.appl("plus", 1, 2), or toolbus.appl("none") without arguments

local toolbus = {}

local MOST_SIZE = 65536
local MOST_DEPTH = 64
local MOST_LINE_BYTES = 65536

--- A handler of on_eval returns this if the tool calls tool:value later.
toolbus.LATER = setmetatable({}, {__name = "LATER"})

-- Errors

local TermError = {__name = "TermError"}
TermError.__tostring = function(self) return self.message end

--- Raises an error: a table with the fields kind, message and at.
-- The kind is "syntax", "real", "integer", "large", "deep" or "value". For the first three, at is the byte, counted from 0.
local function fail(kind, message, at)
  error(setmetatable({kind = kind, message = message, at = at}, TermError), 0)
end

--- Returns whether a value is an error in a term.
function toolbus.is_term_error(value) return getmetatable(value) == TermError end

local function check_limits(size, depth)
  if size > MOST_SIZE then fail("large", ("the term is too large: its size is %d, the limit is %d"):format(size, MOST_SIZE)) end
  if depth > MOST_DEPTH then fail("deep", ("the term is too deep: the limit is %d"):format(MOST_DEPTH)) end
end

-- Terms

local Appl = {__name = "Appl"}
Appl.__tostring = function(self) return toolbus.write_term(self) end

--- Returns a term with a name and arguments: a table with the field name, and the arguments at 1, 2 and so on.
function toolbus.appl(name, ...) return setmetatable({name = name, ...}, Appl) end

--- Returns whether a term is a name, with or without arguments. true and false aren't.
function toolbus.is_appl(term) return getmetatable(term) == Appl end

-- Reading

local ESCAPED = {['"'] = '"', ["\\"] = "\\", n = "\n", r = "\r", t = "\t"}

local Reader = {}
Reader.__index = Reader

--- Reads one term from left to right. It doesn't recurse, because a text can nest deeply. `at` counts from 1.
local function reader_of(text) return setmetatable({text = text, at = 1, size = 0, depth = 0}, Reader) end

function Reader:syntax_error(at)
  local found = at <= #self.text and ("%q"):format(self.text:sub(at, at)) or "the end of the text"
  fail("syntax", ("syntax error at byte %d: found %s"):format(at - 1, found), at - 1)
end

--- Moves past the text that a pattern matches here, and returns this text, or nil.
function Reader:take(pattern)
  local found = self.text:match(pattern, self.at)
  self.at = self.at + #(found or "")
  return found
end

--- Skips whitespace, and returns the next byte, or "" at the end.
function Reader:next()
  self:take("^[\t\n\r ]*")
  return self.text:sub(self.at, self.at)
end

function Reader:number()
  local start = self.at
  local sign, digits = self:take("^%-?"), self:take("^%d+")
  if not digits then self:syntax_error(self.at) end
  if self.text:find("^%.%d", self.at) then
    fail("real", ("real number at byte %d: a number must be whole"):format(start - 1), start - 1)
  end
  local number = tonumber(sign .. digits)
  if math.type(number) ~= "integer" then
    local range = ("the range is %d to %d"):format(math.mininteger, math.maxinteger)
    fail("integer", ("number out of range at byte %d: %s"):format(start - 1, range), start - 1)
  end
  return number
end

--- Moves past a character of more than one byte. The ranges are those of well-formed UTF-8.
function Reader:wide()
  local first = self.text:byte(self.at)
  if first < 0xc2 or first > 0xf4 then self:syntax_error(self.at) end
  local least = ({[0xe0] = 0xa0, [0xf0] = 0x90})[first] or 0x80
  local most = ({[0xed] = 0x9f, [0xf4] = 0x8f})[first] or 0xbf
  local last = self.at + (first >= 0xf0 and 3 or first >= 0xe0 and 2 or 1)
  for at = self.at + 1, last do
    local byte = self.text:byte(at) or 0
    if byte < least or byte > most then self:syntax_error(at) end
    least, most = 0x80, 0xbf
  end
  local character = self.text:sub(self.at, last)
  self.at = last + 1
  return character
end

function Reader:escape()
  local meant = ESCAPED[self.text:sub(self.at + 1, self.at + 1)]
  if not meant then self:syntax_error(self.at + 1) end
  self.at = self.at + 2
  return meant
end

function Reader:string()
  local pieces = {}
  self.at = self.at + 1
  while true do
    pieces[#pieces + 1] = self:take('^[^"\\\0-\8\10-\31\128-\255]+')
    local byte = self.text:sub(self.at, self.at)
    if byte == '"' then break end
    if byte == "\\" then
      pieces[#pieces + 1] = self:escape()
    elseif byte >= "\128" then
      pieces[#pieces + 1] = self:wide()
    else
      self:syntax_error(self.at)
    end
  end
  self.at = self.at + 1
  local string = table.concat(pieces)
  self.size = self.size + #string
  return string
end

--- Reads a term without parts. Or reads the beginning of a term with parts, and returns nil, its closing bracket, and its value as yet.
function Reader:head()
  local byte = self:next()
  self.size = self.size + 1
  if byte:find("^[-0-9]") then return self:number() end
  if byte == '"' then return self:string() end
  if byte == "[" then
    self.at = self.at + 1
    if self:next() ~= "]" then return nil, "]", {} end
    self.at = self.at + 1
    return {}
  end
  local name = self:take("^[a-z][A-Za-z0-9_-]*")
  if not name then self:syntax_error(self.at) end
  self.size = self.size + #name
  if self:next() == "(" then
    self.at = self.at + 1
    return nil, ")", toolbus.appl(name)
  end
  if name == "true" or name == "false" then return name == "true" end
  return toolbus.appl(name)
end

--- Adds a term to the innermost open one, and closes all that end behind it. Returns the last term that is closed.
function Reader:close(term, above)
  while #above > 0 do
    local around = above[#above]
    table.insert(around.term, term)
    local byte = self:next()
    if byte ~= "," and byte ~= around.close then self:syntax_error(self.at) end
    self.at = self.at + 1
    if byte == "," then break end
    term = around.term
    table.remove(above)
  end
  return term
end

--- Reads the whole text.
function Reader:term()
  local above, term = {}, nil
  repeat
    self.depth = math.max(self.depth, #above + 1)
    local head, close, open = self:head()
    if close then
      table.insert(above, {close = close, term = open})
    else
      term = self:close(head, above)
    end
  until #above == 0
  if self:next() ~= "" then self:syntax_error(self.at) end
  return term
end

--- Returns the term that the text reads as. Raises an error if the text isn't a term or exceeds a limit.
function toolbus.read_term(text)
  local reader = reader_of(text)
  local term = reader:term()
  check_limits(reader.size, reader.depth)
  return term
end

-- Writing

local ESCAPES = {['"'] = '\\"', ["\\"] = "\\\\", ["\n"] = "\\n", ["\r"] = "\\r", ["\t"] = "\\t"}

local function quoted(string)
  local text = '"' .. string:gsub('["\\\n\r\t]', ESCAPES) .. '"'
  local is_string, found = pcall(function() return reader_of(text):string() end)
  if not is_string then fail("value", ("a string can't have these bytes: %q"):format(string:sub(1, 80))) end
  return text, #found
end

local function checked(name)
  if type(name) ~= "string" or not name:find("^[a-z][A-Za-z0-9_-]*$") then
    fail("value", ("%s isn't a name: a name is a lower-case letter, then letters, digits, - and _"):format(tostring(name)))
  end
  return name
end

local text_of

--- Returns the texts of the parts of a table, separated by commas, and their size.
local function parts_of(parts, depth)
  local texts, size = {}, 0
  for index = 1, #parts do
    local text, more = text_of(parts[index], depth)
    texts[index], size = text, size + more
  end
  return table.concat(texts, ","), size
end

--- Returns the text of a term of at most this depth, and its size.
function text_of(term, depth)
  check_limits(0, MOST_DEPTH - depth + 1)
  local kind = math.type(term) or type(term)
  if kind == "integer" then return tostring(term), 1 end
  if kind == "boolean" then return tostring(term), 1 + #tostring(term) end
  if kind == "string" then
    local text, size = quoted(term)
    return text, 1 + size
  end
  if kind ~= "table" then fail("value", ("%s isn't a term: use an integer, string, boolean, table or appl"):format(tostring(term))) end
  local text, size = parts_of(term, depth - 1)
  if not toolbus.is_appl(term) then return "[" .. text .. "]", 1 + size end
  local name = checked(term.name)
  return #term > 0 and name .. "(" .. text .. ")" or name, 1 + #name + size
end

--- Returns the texts of terms that are within the limits together, separated by commas.
local function texts_of(terms)
  local text, size = parts_of(terms, MOST_DEPTH)
  check_limits(size, 0)
  return text
end

--- Returns the text of a term. Raises an error if the value isn't a term or exceeds a limit.
function toolbus.write_term(term)
  local text, size = text_of(term, MOST_DEPTH)
  check_limits(size, 0)
  return text
end

-- Lines

local WORDS = {["rec-eval"] = true, ["rec-do"] = true, ["rec-ack-event"] = true, ["rec-terminate"] = true}

--- Returns the word and the list of the terms of a line from the bus, without its newline. Raises an error if the text isn't such a line.
-- The limits apply to the terms in the line, without its word.
function toolbus.read_line(text)
  local reader = reader_of(text)
  local term = reader:term()
  local word = toolbus.is_appl(term) and term.name
  if not WORDS[word] then fail("value", "the line begins with no word of the bus") end
  if #term == 0 or #term > 1 and word ~= "rec-ack-event" then fail("value", ("%s can't have %d terms"):format(word, #term)) end
  check_limits(reader.size - 1 - #word, reader.depth - 1)
  return word, {table.unpack(term)}
end

-- The event loop

local Tool = {}
Tool.__index = Tool

local bus = io.stdout

local function say(start, between, ...)
  local texts = table.pack(...)
  for index = 1, texts.n do texts[index] = tostring(texts[index]) end
  io.stderr:write(start, table.concat(texts, between), "\n")
end

--- Returns a tool: handlers for the lines that come in, and calls for the lines that go out.
-- From then on, print and io.write write to the standard error.
function toolbus.tool()
  bus:setvbuf("full")
  io.output(io.stderr)
  print = function(...) say("", "\t", ...) end
  local none = function() return {named = {}} end
  return setmetatable({handlers = {["rec-eval"] = none(), ["rec-do"] = none(), ["rec-ack-event"] = none(), ["rec-terminate"] = none()}}, Tool)
end

-- These methods add handlers: on_eval("plus", handler) one for terms with this name, and on_eval(handler) one for all other terms. The
-- first is called with the arguments of the first term, then the other terms. The second is called with the terms of the line.

local function add(handlers, name, handler)
  if handler then handlers.named[name] = handler else handlers.general = name end
end

--- For rec-eval. The kit sends the result as snd-value, unless it is LATER.
function Tool:on_eval(name, handler) add(self.handlers["rec-eval"], name, handler) end

--- For rec-do.
function Tool:on_do(name, handler) add(self.handlers["rec-do"], name, handler) end

--- For rec-ack-event. Optional.
function Tool:on_ack_event(name, handler) add(self.handlers["rec-ack-event"], name, handler) end

--- For rec-terminate. Optional. The kit calls it before the loop ends.
function Tool:on_terminate(name, handler) add(self.handlers["rec-terminate"], name, handler) end

local function send(line)
  if #line > MOST_LINE_BYTES then
    fail("large", ("the line is too long: it has %d bytes, the limit is %d"):format(#line, MOST_LINE_BYTES))
  end
  assert(bus:write(line, "\n"))
  assert(bus:flush())
end

--- Sends snd-value, after a handler of on_eval returned LATER.
function Tool:value(term) send("snd-value(" .. toolbus.write_term(term) .. ")") end

--- Sends snd-event with one term or more.
function Tool:event(...)
  local terms = table.pack(...)
  if terms.n == 0 then fail("value", "snd-event takes one term or more") end
  for index = 1, terms.n do toolbus.write_term(terms[index]) end -- a nil would end the list
  send("snd-event(" .. texts_of(terms) .. ")")
end

--- Sends snd-connect. If --connect started the tool, this line must come first.
function Tool:connect(name) send("snd-connect(" .. checked(name) .. ")") end

--- Sends snd-disconnect. The loop ends.
function Tool:disconnect()
  send("snd-disconnect")
  self.ended = true
end

--- Writes a line to the standard error.
function Tool:log(...)
  say((arg and arg[0] or "tool"):match("[^/]*$") .. ": ", " ", ...)
end

--- Returns the handler for the name of the first term, with the values that it is called with; else the one for all terms.
local function find(handlers, terms)
  local first = terms[1]
  local name = toolbus.is_appl(first) and first.name or type(first) == "boolean" and tostring(first)
  local handler = handlers.named[name]
  if not handler then return handlers.general, terms end
  local values = type(first) == "boolean" and {} or {table.unpack(first)}
  return handler, table.move(terms, 2, #terms, #values + 1, values)
end

function Tool:handle(word, terms)
  local handler, values = find(self.handlers[word], terms)
  local line = function() return word .. "(" .. texts_of(terms) .. ")" end
  if word == "rec-terminate" then
    self.ended, self.reason = true, terms[1]
  end
  if handler then
    local answer = handler(table.unpack(values))
    if word == "rec-eval" and answer ~= toolbus.LATER then self:value(answer) end
  elseif word == "rec-eval" then
    error("no handler for " .. line() .. ": add one by on_eval", 0)
  elseif word == "rec-do" then
    self:log("no handler for " .. line() .. ": add one by on_do")
  end
end

--- Handles lines until rec-terminate, and returns its term. If the input ends first, returns nil. Passes on errors in handlers.
function Tool:run()
  for text in io.stdin:lines() do
    local is_line, word, terms = pcall(toolbus.read_line, text)
    if is_line then
      self:handle(word, terms)
    else
      self:log("ignored a line that no bus sends: " .. tostring(word) .. ": " .. text)
    end
    if self.ended then break end
  end
  return self.reason
end

return toolbus

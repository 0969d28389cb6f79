---Who types into editors: keys of Insert mode, commands, pastes and substitutions, drawn by `math.random`.
local it = require('harness')
local others = require('others')

local M = {}

---Files that are damaged, or have bytes that no encoder writes, and the letters that are typed into them.
M.FILES = {
  { 'utf-8-damaged', { 'é', '日', '😀', 'a', 'b', ' ' } },
  { 'shift_jis-damaged', { '日', 'ｱ', '能', '十', 'a', '\\' } },
  { 'iso-2022-jp-damaged', { '日', '本', '語', 'a', 'b', ' ' } },
  { 'utf-16le-damaged', { '日', 'é', '😀', 'a', 'b', ' ' } },
  { 'gb18030-forms', { '图', '书', 'é', '😀', '€', 'a' } },
}

---Commands of Normal mode.
M.ACTS = { 'x', 'dd', 'u', 'u', '<C-R>', 'J', 'yyp', 'D', '3x', 'rz', 'ddp', '~', 'dw', '>>', 'u3G', 'xu' }

---A file without what takes a letter that is typed behind it for its second byte: such a letter is refused, wherever the keys of
---others have moved the cursor of who types it.
---@param file table
---@return table
local function taking_all(file)
  return vim.tbl_extend('force', file, { before = (file.before:gsub('\129\r', '\255\r')) })
end

---Calls with each of these files and their letters.
---@param call fun(name: string, letters: string[], file: table)
function M.each_file(call)
  local only = os.getenv('LEGACY_TEST_FILES')
  for _, each in ipairs(M.FILES) do
    for _, file in ipairs(it.files()) do
      local is_wanted = not only or vim.tbl_contains(vim.split(only, ' '), each[1])
      if file.name == each[1] and is_wanted then
        call(each[1], each[2], taking_all(file))
      end
    end
  end
end

local function key(letter)
  return letter == '\\' and '<Bslash>' or letter
end

---A person who types: in Insert mode, and commands of Normal mode in between.
---@param other table the editor
---@param marker string a letter that nobody else types
---@param letters string[]
---@param acts (string|fun(other: table))[] commands, each of which ends in Normal mode
function M.new(other, marker, letters, acts)
  M.take_all_keys(other)
  local self = { other = other, marker = marker, typed = 0, keys = 0, acts = acts }
  local is_inserting = false
  function self.step()
    local keys
    if is_inserting and math.random(12) > 1 then
      keys = math.random(3) == 1 and marker or key(letters[math.random(#letters)])
      if math.random(25) == 1 then
        keys = '<CR>'
      end
      self.typed = self.typed + (keys == marker and 1 or 0)
    elseif is_inserting then
      keys, is_inserting = '<Esc>', false
    elseif #self.acts > 0 and math.random(2) == 1 then
      keys = self.acts[math.random(#self.acts)]
      if type(keys) == 'function' then
        keys(other)
        keys = ''
      end
    else
      keys, is_inserting = math.random(30) .. 'G' .. ({ 'i', 'a', 'A', 'I', 'o', 'O' })[math.random(6)], true
    end
    self.keys = self.keys + select(2, keys:gsub('<%w+>', 'x'):gsub('[^\128-\191]', ''))
    other.type(keys)
  end
  function self.rest()
    is_inserting = false
    other.type('<Esc>')
  end
  return self
end

---Has two people type so many keys together.
---@param disturb fun()
function M.both(first, second, keys, disturb)
  local before = first.keys + second.keys
  while first.keys + second.keys - before < keys do
    local who = math.random(2) == 1 and first or second
    for _ = 1, math.random(4) do
      who.step()
    end
    -- (a server that ended is started again only by an edit)
    if first.keys + second.keys - before < keys - 50 then
      disturb()
    end
    if math.random(3) == 1 then
      vim.wait(math.random(8))
    end
  end
  first.rest()
  second.rest()
end

---Waits until two editors have the same bytes and text, and checks that they show them.
---@param rev integer|nil a revision that they have to have seen
function M.agree(one, other, rev)
  local function state(of)
    return of.lua([[
      local buffer = require('harness').buffer()
      return { buffer.document.bytes, buffer.document.rev, vim.api.nvim_buf_get_lines(0, 0, -1, true) }
    ]])
  end
  it.same(vim.wait(it.LIMIT, function()
    local seen = state(one)
    return seen[2] >= (rev or 0) and vim.deep_equal(seen, state(other))
  end, 50), true, 'both have the same')
  one.call('agree', 'one')
  other.call('agree', 'the other')
end

---How often an editor's text has a letter.
function M.count(other, letter)
  return other.lua([[
    local text = table.concat(vim.api.nvim_buf_get_lines(0, 0, -1, true), '\n')
    return select(2, text:gsub(..., ''))
  ]], letter)
end

---Pastes in pieces that end anywhere, and substitutions.
---@param letters string[]
---@return (string|fun(other: table))[]
function M.large(letters)
  local text = {}
  for i = 1, 600 do
    text[i] = i % 40 == 0 and '\n' or letters[math.random(#letters)]
  end
  text = table.concat(text)
  return {
    function(other)
      for from = 1, #text, 97 do
        local phase = from == 1 and 1 or from + 97 > #text and 3 or 2
        other.lua('vim.api.nvim_paste(...)', text:sub(from, from + 96), false, phase)
      end
    end,
    ':%s/a/b/ge<CR>',
    ':%s/b$/a/e<CR>',
    ':g/^$/delete<CR>',
  }
end

---Returns a function that now and then kills a server, or stops it for a while.
---@param settings table
---@param seldom integer once in so many calls
function M.disturbing(settings, seldom)
  return function()
    local number = math.random(seldom) == 1 and others.server(settings)
    if number and math.random(2) == 1 then
      others.kill(settings)
    elseif number then
      vim.loop.kill(number, 'sigstop')
      vim.defer_fn(function()
        pcall(vim.loop.kill, number, 'sigcont')
      end, 300)
    end
  end
end

---Has an editor measure its own pauses, the times in which it has no turn, in milliseconds. Of each it knows how long it worked
---itself, how long the plugin waited in place, and for how long the system let others run: though the editor could have, or until
---a process that it starts had begun. The rest is what the editor would pause on a machine that has nothing else to do.
local MEASURE = [[
  local uv = vim.uv or vim.loop
  local function worked()
    local usage = uv.getrusage()
    local function milliseconds(time)
      return time.sec * 1000 + time.usec / 1000
    end
    return milliseconds(usage.utime) + milliseconds(usage.stime)
  end
  -- (Linux counts the nanoseconds for which the main thread waited for a processor)
  local function delayed()
    local file = io.open('/proc/self/schedstat')
    local text = file and file:read('*l') or ''
    if file then
      file:close()
    end
    return (tonumber(text:match('^%d+ (%d+)')) or 0) / 1000000
  end
  local starting, spawn = 0, uv.spawn
  uv.spawn = function(...)
    local began, before = uv.hrtime(), delayed()
    local results = { spawn(...) }
    starting = starting + (uv.hrtime() - began) / 1000000 - (delayed() - before)
    return unpack(results, 1, 3)
  end
  local waited, wait = 0, vim.wait
  vim.wait = function(...)
    local began = uv.hrtime()
    local results = { wait(...) }
    waited = waited + (uv.hrtime() - began) / 1000000
    return unpack(results, 1, 2)
  end
  local timer, last, before, late = uv.new_timer(), uv.hrtime(), worked(), delayed()
  Pauses = { longest = 0, own = 0, waited = 0, long = 0, rest = 0 }
  timer:start(5, 5, vim.schedule_wrap(function()
    local now, work, delay = uv.hrtime(), worked(), delayed()
    local pause = (now - last) / 1000000
    Pauses.rest = math.max(Pauses.rest, pause - (delay - late) - starting)
    Pauses.longest, Pauses.own = math.max(Pauses.longest, pause), math.max(Pauses.own, work - before)
    Pauses.waited, Pauses.long = math.max(Pauses.waited, waited), Pauses.long + (pause > 100 and 1 or 0)
    last, before, late, waited, starting = now, work, delay, 0, 0
  end))
]]

---@class Pauses
---@field longest number the longest pause
---@field rest number the longest one without the time for which others ran
---@field own number the most that the editor's own processor worked in one
---@field waited number the longest time for which the plugin waited in place in one
---@field long integer how many were longer than 100 ms

function M.measure(other)
  other.lua(MEASURE)
end

---Has an editor take keys however long its program is silent. (By default it takes none after ten seconds, and so loses them.)
function M.take_all_keys(other)
  other.lua("require('legacy.quiet').MANY = math.huge")
end

---@return Pauses
function M.pauses(other)
  return other.lua('return Pauses')
end

return M

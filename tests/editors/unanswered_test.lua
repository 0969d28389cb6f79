---An edit whose reply is lost while another editor edits all around it: whether it was made or not, it is in the document once.
local cutting = require('cutting')
local it = require('harness')
local others = require('others')

local TEXT = 'one\ntwo\nthree\nfour\n'

---What another editor does before this one has found out, each sent by itself, and by how much the text grows. What `since`
---says of all of them together covers the place of this editor's edit.
local THEIRS = {
  { 'after it and then before it', { 'GAZ<Esc>', 'GAZ<Esc>', 'ggAZ<Esc>' }, 3 },
  { 'before it and then after it', { 'ggAZ<Esc>', 'ggAZ<Esc>', 'GAZ<Esc>' }, 3 },
  { 'all around it', { '3GAZ<Esc>', 'ggIZ<Esc>', 'GAZ<Esc>', '3GIZ<Esc>' }, 4 },
  { 'in its line on both sides', { '2GIZ<Esc>', '2GAZ<Esc>', '2GIZ<Esc>' }, 3 },
  { 'that take out letters', { 'Gx', 'ggx', 'GAZ<Esc>' }, -1 },
  { 'of whole lines', { 'GoZ<Esc>', 'ggOZ<Esc>', 'Gdd' }, 2 },
}

---What this editor does, a text that is then there once or isn't, and by how much the text grows.
local MINE = {
  { 'a letter', '2GAq<Esc>', 'q', 1, 1 },
  { 'letters of several bytes', '2GA日本<Esc>', '日本', 1, 6 },
  { 'a line', '2Goqqq<Esc>', 'qqq', 1, 4 },
  { 'a word for another', '2Gcwzwei<Esc>', 'zwei', 1, 1 },
  { 'a letter that goes', '2G$x', 'two', 0, -1 },
  { 'a line that goes', '2Gdd', 'two', 0, -4 },
  { 'many lines', ':%s/[nwhu]/&q/<CR>', 'q', 4, 4 },
}

---Whether each of these meets each of the others: GATE_LONG=1. By default each is tried once or twice.
local IS_LONG = os.getenv('GATE_LONG') == '1'

---Comes to show the same as another editor.
local function agree(other)
  it.same(vim.wait(it.LIMIT, function()
    it.buffer().sharing:look()
    return not it.buffer().dirty and vim.deep_equal(it.lines(), other.call('lines'))
  end, 20), true, 'both show the same')
  it.agree('this one')
  other.call('agree', 'the other')
end

---@param most integer how many of this editor's edits are made
local function try(other, mine, theirs, most)
  local path = it.open('utf-8', TEXT)
  other.edit('utf-8', path)
  local before = it.buffer().document.connection
  local _, keys, text, times, grown = unpack(mine)
  cutting.cut(most, function()
    other.lua('require("harness").buffer().sharing:look()')
    for _, each in ipairs(theirs[2]) do
      other.call('keys', each)
    end
  end)
  it.keys(keys)
  agree(other)
  it.same(it.buffer().document.connection ~= before, true, 'the connection was made again')
  local now = table.concat(it.lines(), '\n') .. '\n'
  it.same(select(2, now:gsub(text, '')), times, vim.inspect(now))
  it.same(#now, #TEXT + grown + theirs[3], vim.inspect(now))
end

for most = 0, 1 do
  local name = ('an edit unanswered and %s, and edits of another around it'):format(most == 0 and 'not made' or 'made')
  others.together(name, 'utf-8', TEXT, function(other)
    local failures = {}
    for i, mine in ipairs(MINE) do
      for k, theirs in ipairs(THEIRS) do
        local is_tried = IS_LONG or (i + most) % #THEIRS == k - 1
        local done, why = not is_tried, nil
        if is_tried then
          done, why = xpcall(try, debug.traceback, other, mine, theirs, most)
        end
        failures[#failures + 1] = not done and ('%s, and edits %s: %s'):format(mine[1], theirs[1], why) or nil
      end
    end
    it.same(#failures, 0, table.concat(failures, '\n') .. '\nfailures')
  end)
end

others.together('an edit that a slow server makes once it was asked about it', 'utf-8', TEXT, function(other)
  for _, more in ipairs({ '', 'r' }) do
    local path = it.open('utf-8', TEXT)
    other.edit('utf-8', path)
    cutting.delay(function(command)
      cutting.deliver(it.buffer().document.connection.path, command)
      vim.api.nvim_buf_set_text(0, 1, 4, 1, 4, { more })
    end)
    it.keys('2GAq<Esc>')
    agree(other)
    it.same(it.lines()[2], 'twoq' .. more)
  end
end)

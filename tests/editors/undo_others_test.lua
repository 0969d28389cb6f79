---Undo and redo of one's own edits among those of another editor, to the byte.
local it = require('harness')
local others = require('others')

---Keys with their mappings, as typed.
local function press(keys)
  vim.cmd('normal ' .. vim.api.nvim_replace_termcodes(keys, true, false, true))
  it.sync()
end

local function arrives(lines, call)
  call()
  others.shows(lines)
end

others.together('own edits are undone behind those of another', 'utf-8', 'a\255\nb\nc\n', function(other, path)
  it.keys('0lx')
  it.keys('jrB')
  other.shows({ 'a', 'B', 'c' })
  arrives({ 'new', 'a', 'B', 'c.' }, function()
    other.call('keys', 'ggOnew<Esc>GA.<Esc>')
  end)
  press('u')
  it.same(it.lines(), { 'new', 'a', 'b', 'c.' })
  it.same(vim.api.nvim_win_get_cursor(0)[1], 3, 'the cursor is where it was undone')
  press('u')
  it.same(it.buffer().document.bytes, 'new\na\255\nb\nc.\n', 'to the byte')
  it.said('oldest change', function()
    press('u')
  end)
  press('2<C-R>')
  it.same(it.buffer().document.bytes, 'new\na\nB\nc.\n', 'done again')
  it.said('newest change', function()
    press('<C-R>')
  end)
  press('2u')
  it.same(it.written(path), 'new\na\255\nb\nc.\n')
  other.shows({ 'new', 'a\239\191\189', 'b', 'c.' })
  other.call('agree', 'the other')
  it.agree('this one')
end)

others.together('a buffer that can\'t be modified shows edits, and undo goes on', 'utf-8', 'a\255\nb\n', function(other)
  it.keys('0lx')
  vim.bo.modifiable = false
  arrives({ 'a', 'b', 'c' }, function()
    other.call('keys', 'Goc<Esc>')
  end)
  it.same(vim.bo.modifiable, false)
  vim.bo.modifiable = true
  press('u')
  it.same(it.buffer().document.bytes, 'a\255\nb\nc\n')
  it.keys('GrC')
  press('u')
  it.same(it.lines(), { 'a\239\191\189', 'b', 'c' })
end)

others.together('what was undone can be done again behind an edit of another', 'utf-8', 'a\255\nb\n', function(other)
  it.keys('0lx')
  it.keys('jrB')
  it.undo(2)
  arrives({ 'x', 'a\239\191\189', 'b' }, function()
    other.call('keys', 'ggOx<Esc>')
  end)
  press('<C-R>')
  it.same(it.buffer().document.bytes, 'x\na\nb\n')
  press('<C-R>')
  it.same(it.lines(), { 'x', 'a', 'B' })
  press('2u')
  it.same(it.buffer().document.bytes, 'x\na\255\nb\n')
  it.keys('Grz')
  it.said('newest change', function()
    press('<C-R>')
  end)
end)

others.together('an edit in which another edited is not undone', 'utf-8', 'a\nb\n', function(other)
  it.keys('Ahello<Esc>')
  it.keys('jA!<Esc>')
  other.shows({ 'ahello', 'b!' })
  arrives({ 'ahelXlo', 'b!' }, function()
    other.call('keys', 'gg04liX<Esc>')
  end)
  press('u')
  it.same(it.lines(), { 'ahelXlo', 'b' })
  it.said('another editor has changed this text', function()
    press('u')
  end)
  it.same(it.lines(), { 'ahelXlo', 'b' })
  it.said('oldest change', function()
    press('u')
  end)
  other.shows({ 'ahelXlo', 'b' })
end)

others.together('an edit behind which another goes on is undone', 'utf-8', 'ab\n', function(other)
  it.keys('ix<Esc>')
  other.shows({ 'xab' })
  arrives({ 'xyab' }, function()
    other.call('keys', '0ay<Esc>')
  end)
  press('u')
  it.same(it.lines(), { 'yab' })
end)

others.together('what is inserted while another edits is one step', 'utf-8', 'a\nb\n', function(other)
  other.type('Goone ')
  it.keys('ggOx<Esc>')
  other.shows({ 'x', 'a', 'b', 'one ' })
  other.type('two ')
  it.keys('ggOy<Esc>')
  other.shows({ 'y', 'x', 'a', 'b', 'one two ' })
  other.type('three<Esc>')
  others.shows({ 'y', 'x', 'a', 'b', 'one two three' })
  other.type('u')
  others.shows({ 'y', 'x', 'a', 'b' })
  other.shows({ 'y', 'x', 'a', 'b' })
  other.type('<C-R>')
  others.shows({ 'y', 'x', 'a', 'b', 'one two three' })
  press('u')
  it.same(it.lines(), { 'x', 'a', 'b', 'one two three' })
end)

others.together('undo while text is inserted', 'utf-8', 'a\nb\n', function(other)
  other.type('Goone ')
  it.keys('ggOx<Esc>')
  other.shows({ 'x', 'a', 'b', 'one ' })
  other.type('two<C-O>u')
  other.shows({ 'x', 'a', 'b' })
  other.type('z<Esc>')
  others.shows(other.call('lines'))
  it.agree('this one')
end)

others.together("Neovim's own undo is that of edits since then", 'utf-8', 'a\255\nb\n', function(other)
  it.keys('0lx')
  arrives({ 'a', 'b', 'c' }, function()
    other.call('keys', 'Goc<Esc>')
  end)
  vim.cmd('silent! undo')
  it.sync()
  it.same(it.lines(), { 'a', 'b', 'c' })
  it.keys('jrB')
  it.keys('rD')
  vim.cmd('silent undo 0')
  it.sync()
  it.same(it.lines(), { 'a', 'b', 'c' })
  press('u')
  it.same(it.buffer().document.bytes, 'a\255\nb\nc\n')
end)

others.together('an undo that would read what another wrote as something else', 'iso-2022-jp', 'ab\n', function(other, path)
  it.keys('0li日<Esc>')
  other.shows({ 'a日b' })
  arrives({ 'a本日b' }, function()
    other.call('keys', '0li本<Esc>')
  end)
  local before = it.buffer().document.bytes
  press('u')
  if it.lines()[1] ~= 'a本b' then
    it.same(it.lines(), { 'a本日b' })
    it.same(it.buffer().document.bytes, before)
  end
  it.agree('this one')
  it.written(path)
  other.shows(it.lines())
  other.call('agree', 'the other')
end)

---A file with a line of hyphens put in behind its middle, and where that begins.
local function halves(file)
  local wide = file.label == 'utf-16le'
  local feed, line = wide and '\n\0' or '\n', wide and ('-\0'):rep(4) .. '\n\0' or '----\n'
  local at = math.floor(#file.before / 2)
  repeat
    at = file.before:find(feed, at + 1, true)
  until not wide or at % 2 == 1
  at = at + #feed - 1
  return file.before:sub(1, at) .. line .. file.before:sub(at + 1), at
end

local ACTS = { 'x', 'yyp', 'iq<Esc>', 'onew<Esc>', 'D', '3x', 'ccz<Esc>', 'dw', '>>', 'dd' }
local THEIRS = { 'iw<Esc>', 'ow<Esc>', 'x', 'rw' }

-- Each edits lines of his own at random; all undone, his lines are as they were, and the other's stay.
for _, file in ipairs(it.files()) do
  if file.name:find('damaged$') then
    local bytes, half = halves(file)
    others.together(file.name .. ': all own edits undone', file.label, bytes, function(other, path)
      math.randomseed(11)
      local function middle()
        return vim.fn.search('^----', 'nw')
      end
      local function theirs()
        return vim.list_slice(it.lines(), middle())
      end
      for i = 1, 30 do
        vim.fn.cursor(math.random(math.max(middle() - 1, 1)), math.random(4))
        if vim.fn.line('.') < middle() then
          it.keys(ACTS[math.random(#ACTS)])
        end
        if i % 3 == 0 then
          other.lua([[
            vim.fn.cursor(math.random(vim.fn.search('^----', 'nw') + 1, vim.fn.line('$')), math.random(4))
            require('harness').keys(...)
          ]], THEIRS[math.random(#THEIRS)])
        end
        it.buffer().sharing:look()
        it.agree('edit ' .. i)
      end
      local rest = theirs()
      it.same(it.buffer().document.bytes:sub(1, half) == bytes:sub(1, half), false, 'edited')
      for _ = 1, 40 do
        press('u')
        it.agree('undo')
      end
      it.same(theirs(), rest, "the other's edits")
      it.same(it.buffer().document.bytes:sub(1, half) == bytes:sub(1, half), true, 'own lines, to the byte')
      other.shows(it.lines())
      other.call('agree', 'the other')
      it.same(it.written(path), it.buffer().document.bytes)
    end)
  end
end

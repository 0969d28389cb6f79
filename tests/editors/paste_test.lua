---Text that comes in pieces: nothing of it is lost, wherever a piece ends.
local it = require('harness')
local others = require('others')
local terminal = require('terminal')

---Lines of some bytes in UTF-8 that every encoding below has.
---@param size integer
---@return string[]
local function japanese(size)
  local lines, count = {}, 0
  while count < size do
    local line = ('%d 日本語の文章、カタカナ、ひらがなと漢字。'):format(#lines):rep(2)
    lines[#lines + 1] = line
    count = count + #line + 1
  end
  return lines
end

local LABELS = { 'utf-8', 'utf-16le', 'shift_jis', 'euc-jp', 'iso-2022-jp', 'gb18030' }

---A text of the lines 'a' and 'b' in an encoding.
local function two(label)
  return label == 'utf-16le' and 'a\0\n\0b\0\n\0' or 'a\nb\n'
end

---That a Neovim comes to show lines, and that the document has them.
local function holds(other, lines, path)
  it.same(vim.wait(it.LIMIT, function()
    return other.lua('return #vim.fn.getline(1, "$")') == #lines
  end, 20), true, ('%d lines in place of %d'):format(other.lua('return #vim.fn.getline(1, "$")'), #lines))
  it.same(vim.wait(it.LIMIT, function()
    return vim.deep_equal(other.call('lines'), lines)
  end, 100), true, 'all that was pasted is shown')
  other.call('sync')
  it.same(vim.deep_equal(other.call('lines'), lines), true, 'and is still shown')
  other.call('agree', 'the editor')
  it.same(other.call('written', path), other.lua('return require("harness").buffer().document.bytes'), 'the file')
end

for _, label in ipairs(LABELS) do
  for _, is_shared in ipairs({ false, true }) do
    local how = is_shared and 'shared' or 'alone'
    local settings = is_shared and others.settings() or nil
    local function test(size, keys)
      local name = ('%d bytes are pasted into a terminal, %s in %s'):format(size, how, label)
      terminal.within(name, label, two(label), settings, function(other, path)
        local lines = japanese(size)
        other.press(keys)
        other.paste(table.concat(lines, '\n'))
        other.press('Escape')
        lines[1] = (keys == 'o' and '' or 'a') .. lines[1]
        table.insert(lines, 'b')
        if keys == 'o' then
          table.insert(lines, 1, 'a')
        end
        holds(other, lines, path)
      end)
    end
    test(4500, 'A')
    test(20000, 'o')
  end
end

---Pastes a text by pieces of some bytes.
local function paste(text, size)
  for from = 1, #text, size do
    local is_first, is_last = from == 1, from + size > #text
    local phase = is_first and is_last and -1 or is_first and 1 or is_last and 3 or 2
    vim.api.nvim_paste(text:sub(from, from + size - 1), false, phase)
    vim.wait(1)
  end
end

for _, label in ipairs(LABELS) do
  for _, size in ipairs({ 1, 2, 7, 1000 }) do
    it.test(('pieces of %d bytes are pasted in %s'):format(size, label), not label:find('^utf'), function()
      local path = it.open(label, two(label))
      local lines = japanese(size == 1000 and 60000 or 300)
      vim.fn.cursor(1, 1)
      it.said('', function()
        paste(table.concat(lines, '\n'), size)
        it.sync()
      end)
      it.same(vim.fn.execute('messages'):find('taken back', 1, true), nil)
      lines[1], lines[#lines] = 'a' .. lines[1], lines[#lines]
      table.insert(lines, 'b')
      it.same(it.lines(), lines)
      it.agree('pasted')
      it.same(it.written(path), it.buffer().document.bytes)
      it.undo()
      it.agree('undone')
    end)
  end
end

it.test('the beginning of a character waits for its rest', false, function()
  local path = it.open('utf-8', 'a\255\nb\n')
  vim.api.nvim_buf_set_text(0, 0, 1, 0, 1, { 'x\230\151' })
  it.sync()
  it.same({ it.lines()[1], it.buffer().document.bytes }, { 'ax\230\151\239\191\189', 'ax\255\nb\n' })
  vim.api.nvim_buf_set_text(0, 0, 4, 0, 4, { '\165y' })
  it.sync()
  it.same({ it.lines()[1], it.buffer().document.bytes }, { 'ax日y\239\191\189', 'ax日y\255\nb\n' })
  it.same(it.written(path), 'ax日y\255\nb\n')
end)

it.test('the beginning of a character that gets no rest is taken back, and nothing else', false, function()
  local Sending = require('legacy.sending')
  local patience = Sending.PATIENCE
  Sending.PATIENCE = 100
  it.open('utf-8', 'a\nb\n')
  vim.api.nvim_buf_set_text(0, 0, 1, 0, 1, { 'x\230\151y' })
  it.said("taken back: the text isn't Unicode", function()
    it.sync()
    vim.wait(it.LIMIT, function()
      return it.lines()[1] == 'axy'
    end, 10)
  end)
  Sending.PATIENCE = patience
  it.same({ it.lines(), vim.fn.getreg('-') }, { { 'axy', 'b' }, '\230\151' })
  it.agree('taken back')
end)

it.test('what is written doesn\'t wait for the rest of a character', false, function()
  local path = it.open('utf-8', 'a\n')
  vim.api.nvim_buf_set_text(0, 0, 1, 0, 1, { 'x\230\151y' })
  it.same(it.written(path), 'axy\n')
  it.same(it.lines(), { 'axy' })
end)

it.test('of a text the characters are taken back that the encoding lacks, and nothing else', false, function()
  local path = it.open('x-user-defined', 'abc\n')
  it.said("taken back: U+3042, U+1F600 aren't in x-user-defined; it is in register -", function()
    vim.api.nvim_buf_set_lines(0, 1, 1, true, { 'one あ two', 'three', 'あ😀 four' })
    it.sync()
  end)
  it.same(it.lines(), { 'abc', 'one  two', 'three', ' four' })
  it.same(vim.fn.getreg('-'), 'ああ😀')
  it.agree('taken back')
  it.same(it.written(path), 'abc\none  two\nthree\n four\n')
  it.undo()
  it.same(it.written(path), 'abc\n')
end)

it.test('of many characters that an encoding lacks only some are named', false, function()
  it.open('x-user-defined', 'a\n')
  it.said("U+3046 and 2 more aren't in x-user-defined", function()
    vim.api.nvim_buf_set_lines(0, 1, 1, true, { 'あぃいぅうぇえ' })
    it.sync()
  end)
  it.same(it.lines(), { 'a', '' })
end)

it.test('with marks such text stays in the buffer, and all else is in the document', false, function()
  it.settings({ refused = 'mark' })
  local path = it.open('x-user-defined', 'abc\n')
  vim.api.nvim_buf_set_lines(0, 1, 1, true, { 'one あ two', 'three', '😀 four' })
  it.sync()
  it.same(it.lines(), { 'abc', 'one あ two', 'three', '😀 four' })
  it.same(it.buffer().document.bytes, 'abc\none  two\nthree\n four\n')
  it.buffer():show()
  it.same(vim.tbl_map(function(each)
    return { each.lnum, each.message }
  end, vim.diagnostic.get(0)), {
    { 1, "not in the file: U+3042 isn't in x-user-defined" },
    { 3, "not in the file: U+1F600 isn't in x-user-defined" },
  })
  vim.cmd('silent write!')
  it.same(it.read(path), 'abc\none  two\nthree\n four\n')
end)

it.test('of a text only what would be read as another is taken back', true, function()
  local path = it.open('shift_jis', 'x\129\n')
  it.said('taken back: Shift_JIS would read these bytes', function()
    vim.api.nvim_buf_set_text(0, 0, 4, 0, 4, vim.split('A long text\nof two lines', '\n'))
    it.sync()
  end)
  it.agree('taken back')
  it.same(it.written(path), 'x\129 long text\nof two lines\n')
end)

it.test('text of 5 MB is put in by :r, by p and by a paste', false, function()
  local text = table.concat(japanese(5000000), '\n') .. '\n'
  it.write(it.work .. '/long', text)
  local path = it.open('utf-8', 'a\255\n')
  vim.cmd(('silent read ++enc=utf-8 %s/long'):format(it.work))
  it.same(it.written(path) == 'a\255\n' .. text, true, ':r')
  it.undo()
  vim.fn.setreg('a', text, 'l')
  vim.cmd('silent normal! "ap')
  it.same(it.written(path) == 'a\255\n' .. text, true, 'p')
  it.undo()
  vim.cmd('silent normal! o')
  paste(text, 65536)
  it.same(it.written(path) == 'a\255\n' .. text .. '\n', true, 'a paste')
  it.undo()
  it.same(it.written(path), 'a\255\n')
end)

terminal.summary()

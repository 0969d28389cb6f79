---What isn't saved when a Neovim is killed: the next one offers it.
local it = require('harness')
local others = require('others')
local terminal = require('terminal')

local uv = vim.uv or vim.loop

local function wait(call, what)
  it.same(vim.wait(it.LIMIT, call, 10), true, what)
end

---The files in which something is kept.
local function kept()
  return vim.fn.glob(it.work .. '/state/gate/unsaved/*', true, true)
end

-- (tests before these have killed editors too)
vim.fn.delete(it.work .. '/state/gate/unsaved', 'rf')

---Waits until the files hold what was edited.
local function settle()
  vim.wait(200)
end

local number = 0

---Has another Neovim edit a file and then killed.
---@param label string
---@param bytes string
---@param settings table
---@param edit fun(other: table)
---@return string path
local function killed(label, bytes, settings, edit)
  number = number + 1
  local path = ('%s/kept%d.txt'):format(it.work, number)
  it.write(path, bytes)
  local other = others.editor(settings)
  other.edit(label, path)
  edit(other)
  settle()
  other.kill()
  return path
end

it.test('edits of a Neovim that was killed are offered and taken', false, function()
  local path = killed('utf-8', 'a\255\nb\n', {}, function(other)
    other.call('keys', 'rx')
    other.call('keys', 'Gotext<CR>more<Esc>')
    other.call('keys', 'gg0x')
  end)
  it.same(it.read(path), 'a\255\nb\n')
  it.said('unsaved edits %(%d+%-%d+ %d+:%d+%)', function()
    vim.cmd('LegacyEdit utf-8 ' .. path)
  end, true)
  it.same(it.lines(), { 'a\239\191\189', 'b' }, 'nothing is taken yet')
  vim.cmd('LegacyRecover')
  it.same({ it.lines(), vim.bo.modified }, { { '\239\191\189', 'b', 'text', 'more' }, true })
  it.agree('taken')
  it.undo()
  it.same(it.buffer().document.bytes, 'a\255\nb\n', 'undone')
  it.redo()
  it.same(it.written(path), '\255\nb\ntext\nmore\n')
  it.same(kept(), {}, 'nothing is kept once all is saved')
end)

it.test('they are there until they are taken or dropped', false, function()
  local path = killed('utf-8', 'a\n', {}, function(other)
    other.call('keys', 'rx')
  end)
  for _ = 1, 2 do
    it.said('): :LegacyRecover [compare|discard]', function()
      vim.cmd('LegacyEdit utf-8 ' .. path)
    end)
    vim.cmd('bwipeout!')
  end
  it.same(#kept(), 1)
  vim.cmd('LegacyEdit utf-8 ' .. path)
  vim.cmd('LegacyRecover discard')
  it.same({ kept(), it.lines() }, { {}, { 'a' } })
  it.same(it.failure('LegacyRecover'), 'legacy: nothing of this file was left unsaved')
  it.same(it.failure('LegacyRecover all'), 'legacy: :LegacyRecover takes recover, compare or discard')
end)

it.test('they are compared with the file', false, function()
  local path = killed('utf-8', 'a\nb\255\n', {}, function(other)
    other.call('keys', 'rx')
  end)
  vim.cmd('LegacyEdit utf-8 ' .. path)
  vim.cmd('LegacyRecover compare')
  it.same({ #vim.api.nvim_tabpage_list_wins(0), vim.wo.diff, it.lines() }, { 2, true, { 'a', 'b\239\191\189' } })
  vim.cmd('wincmd p')
  it.same({ it.lines(), vim.bo.modifiable }, { { 'x', 'b\239\191\189' }, false })
  vim.cmd('close!')
  vim.cmd('LegacyRecover recover')
  it.same(it.buffer().document.bytes, 'x\nb\255\n')
  it.written(path)
end)

it.test('text that the program did not get is kept too', false, function()
  local settings = others.settings()
  local path = killed('utf-8', 'a\255\nb\n', settings, function(other)
    other.lua("require('legacy.connection').LOOK = 20")
    other.call('keys', 'Gox<Esc>')
    local server = others.server(settings)
    uv.kill(server, 'sigstop')
    other.type('Gounsent')
    other.type(' text<Esc>')
    vim.wait(500)
    uv.kill(server, 'sigkill')
  end)
  vim.cmd('LegacyEdit utf-8 ' .. path)
  vim.cmd('LegacyRecover')
  it.same(it.lines(), { 'a\239\191\189', 'b', 'x', 'unsent text' })
  it.same(it.written(path), 'a\255\nb\nx\nunsent text\n')
end)

it.test('what is kept is small, and its owner\'s alone', false, function()
  local path = it.open('utf-8', 'a\n')
  it.same(kept(), {}, 'nothing, as long as nothing was edited')
  for i = 1, 1200 do
    it.keys(i % 2 == 0 and 'rx' or 'ry')
    if i % 300 == 0 then
      settle()
    end
  end
  settle()
  local stat = uv.fs_stat(kept()[1])
  it.same({ #kept(), stat.size < 70000, stat.mode % 512 }, { 1, true, tonumber('600', 8) }, stat.size)
  it.same(uv.fs_stat(it.work .. '/state/gate/unsaved').mode % 512, tonumber('700', 8))
  it.keys('ra')
  it.same(kept(), {}, 'nothing, where all is as it is in the file')
  it.keys('rb')
  it.written(path)
  it.same(kept(), {}, 'nothing, once it is saved')
  it.keys('rc')
  settle()
  it.same(#kept(), 1)
  vim.cmd('bwipeout!')
  it.same(kept(), {}, 'nothing, where the user drops it')
end)

it.test('nothing is kept where it is set so', false, function()
  it.settings({ keep = false })
  it.open('utf-8', 'a\n')
  it.keys('rx')
  settle()
  it.same(kept(), {})
end)

it.test('who has no room for it edits all the same', false, function()
  local before = vim.env.XDG_STATE_HOME
  -- (below a file no folder can be made)
  vim.env.XDG_STATE_HOME = it.work .. '/files/list'
  local done, why = pcall(function()
    local path = it.open('utf-8', 'a\n')
    it.keys('rx')
    it.same(it.written(path), 'x\n')
  end)
  vim.env.XDG_STATE_HOME = before
  assert(done, why)
end)

it.test('a signal keeps what isn\'t saved', false, function()
  number = number + 1
  local path = ('%s/kept%d.txt'):format(it.work, number)
  it.write(path, 'a\n')
  local other = others.editor({})
  other.edit('utf-8', path)
  other.call('keys', 'rx')
  settle()
  other.kill('sigterm')
  vim.cmd('LegacyEdit utf-8 ' .. path)
  vim.cmd('LegacyRecover')
  it.same(it.written(path), 'x\n')
end)

it.test('a file that is torn off is taken as far as it is whole', false, function()
  local path = killed('utf-8', 'abc\n', {}, function(other)
    other.call('keys', 'rx')
    other.call('keys', 'lry')
  end)
  local file = kept()[1]
  local bytes = it.read(file)
  it.write(file, bytes:sub(1, -2))
  vim.cmd('LegacyEdit utf-8 ' .. path)
  vim.cmd('LegacyRecover')
  it.same(it.lines(), { 'xyc' }, 'the text that was held')
  it.write(path, 'abc\n')
  vim.cmd('bwipeout!')
  it.write(file, 'no such file')
  vim.cmd('LegacyEdit utf-8 ' .. path)
  it.same(it.failure('LegacyRecover'), 'legacy: nothing of this file was left unsaved')
  os.remove(file)
end)

---Waits until a terminal shows a text.
local function shows(of, text)
  local screen
  it.same(vim.wait(it.LIMIT, function()
    screen = of.screen()
    return screen:find(text, 1, true) ~= nil
  end, 50), true, text .. ' in ' .. (screen or ''))
end

terminal.within('a Neovim in a terminal is killed, and the next one offers what was typed', 'shift_jis', '\147\250\255\nb\n', {},
  function(first, path)
    first.press('G', 'o', 'typed', 'Escape', 'g', 'g', '0', 'x')
    shows(first, 'typed')
    wait(function()
      return not first.call('buffer_is_dirty')
    end, 'all is sent')
    settle()
    first.kill()
    it.same(it.read(path), '\147\250\255\nb\n', 'the file is as it was')
    local again = terminal.editor({})
    local done, why = pcall(function()
      again.press(':LegacyEdit shift_jis ' .. path, 'Enter')
      shows(again, '): :LegacyRecover [compare|discard]')
      again.press(':LegacyRecover compare', 'Enter')
      shows(again, 'typed')
      again.press(':only', 'Enter', ':LegacyRecover', 'Enter', ':write', 'Enter')
      it.same(vim.wait(it.LIMIT, function()
        return it.read(path) == '\255\nb\ntyped\n'
      end, 50), true, vim.inspect(it.read(path)))
      it.same(kept(), {}, 'nothing is kept once all is saved')
    end)
    again.quit()
    assert(done, why)
  end)

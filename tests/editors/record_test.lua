---The record that the server of a socket keeps by default. It tells what became of an edit whose reply was lost. If all are killed,
---it has what nobody saved.
local cut = require('cutting').cut
local it = require('harness')
local others = require('others')
local record = require('legacy.record')

local uv = vim.uv or vim.loop

---Texts that are kept since nobody knows whether they are in their documents.
local function kept_texts()
  return vim.tbl_map(it.read, vim.fn.glob(it.work .. '/state/gate/unsaved/text.*', true, true))
end

---Comes to show lines, as another editor does.
local function both_show(other, lines)
  others.shows(lines)
  other.shows(lines)
  it.agree('this one')
  other.call('agree', 'the other')
end

for most = 0, 1 do
  local made = most == 0 and 'not made' or 'made'

  others.together(('an edit without a reply (%s), and one of another that is alike'):format(made), 'utf-8', 'ab\n', function(other)
    cut(most, function()
      other.call('keys', 'Aq<Esc>')
    end)
    it.keys('Aq<Esc>')
    both_show(other, { 'abqq' })
  end)

  others.together(('a letter without a reply (%s) that another takes out'):format(made), 'utf-8', 'ab\n', function(other)
    cut(most, function()
      other.lua('require("harness").buffer().sharing:look()')
      other.call('keys', 'Ax<Esc>x')
      other.call('keys', most == 1 and '$x' or 'rb')
    end)
    it.keys('Aq<Esc>')
    both_show(other, { most == 1 and 'ab' or 'abq' })
    it.same(kept_texts(), {}, 'texts that are kept')
  end)

  others.together(('a letter of which nobody knows whether it was made (%s)'):format(made), 'utf-8', 'ab\n', function(other)
    cut(most, function()
      other.lua('require("harness").buffer().sharing:look()')
      if most == 0 then
        -- (which is just what this editor wanted)
        other.call('keys', 'Aq<Esc>')
      end
      other.call('keys', '$x')
      other.call('keys', 'ggIz<Esc>')
      other.call('keys', 'ggx')
    end)
    it.said('nobody knows whether your last edit was made; its text is in', function()
      it.keys('Aq<Esc>')
    end)
    both_show(other, { 'ab' })
    it.same(kept_texts(), { 'q' }, 'texts that are kept')
    vim.fn.delete(it.work .. '/state/gate/unsaved', 'rf')
    it.keys('Ar<Esc>')
    both_show(other, { 'abr' })
  end, { record = '' })
end

---Two editors of a damaged file type into it, and they and their server are killed.
---@param settings table
---@return string path
local function kill_all(settings)
  local path = settings.socket .. '.txt'
  it.write(path, '\147\250\255\nb\n')
  local one, other = others.editor(settings), others.editor(settings)
  one.edit('shift_jis', path)
  other.edit('shift_jis', path)
  one.call('keys', 'Gotyped<Esc>')
  other.shows({ '日\239\191\189', 'b', 'typed' })
  other.call('keys', 'gg0x')
  one.shows({ '\239\191\189', 'b', 'typed' })
  one.kill()
  other.kill()
  others.kill(settings)
  -- What each of them has kept is not what this is about.
  vim.fn.delete(it.work .. '/state/gate/unsaved', 'rf')
  it.same(it.read(path), '\147\250\255\nb\n')
  return path
end

it.test('editors and their server are killed, and the next one has what they did', true, function()
  local settings = others.settings()
  local path = kill_all(settings)
  it.settings(settings)
  it.said('edits that nobody wrote', function()
    vim.cmd('LegacyEdit shift_jis ' .. path)
  end)
  it.same(it.buffer().document.bytes, '\255\nb\ntyped\n')
  vim.cmd('silent write!')
  it.same(it.read(path), '\255\nb\ntyped\n')
  others.kill(settings)
end)

it.test('they are offered if the machine was started again since', true, function()
  local settings = others.settings()
  local path = kill_all(settings)
  -- (the folder of a socket is empty then)
  os.remove(settings.socket)
  it.settings(settings)
  it.said('): :LegacyRecover [compare|discard]', function()
    vim.cmd('LegacyEdit shift_jis ' .. path)
  end)
  it.same({ it.buffer().document.bytes, vim.bo.modified }, { '\147\250\255\nb\n', false })
  vim.cmd('LegacyRecover compare')
  vim.cmd('wincmd p')
  it.same(it.lines(), { '\239\191\189', 'b', 'typed' })
  vim.cmd('close!')
  vim.cmd('LegacyRecover')
  it.same(it.written(path), '\255\nb\ntyped\n')
  it.same(vim.fn.glob(it.work .. '/state/gate/unsaved/*', true, true), {}, 'what is kept')
  others.kill(settings)
end)

it.test('a record is short again once its server has left in order', false, function()
  local settings = others.settings()
  local path = record.default(settings.socket)
  it.settings(settings)
  it.open('utf-8', 'a\n')
  local connection = it.buffer().document.connection
  for _ = 1, 40 do
    connection:ask({ { op = 'open', doc = 'long', label = 'utf-8', bytes = ('YWFh'):rep(1000) } })
    connection:ask({ { op = 'close', doc = 'long' } })
  end
  vim.cmd('bwipeout!')
  vim.wait(200)
  others.kill(settings)
  it.same(vim.wait(it.LIMIT, function()
    return connection.ended
  end, 10), true, 'that is known')
  it.same(uv.fs_stat(path).size > 65536, true, 'it is long')
  it.same(uv.fs_stat(path).mode % 512, tonumber('600', 8), 'the mode')
  os.remove(settings.socket)
  it.open('utf-8', 'b\n')
  it.same(uv.fs_stat(path).size < 4096, true, uv.fs_stat(path).size)
  it.same(uv.fs_stat(path .. '.uncompacted'), nil)
  others.kill(settings)
end)

it.test('a record is removed once its server has left in order and all is closed', true, function()
  local pause = record.PAUSE
  record.PAUSE = 0.05
  local settings = others.settings()
  local path = record.default(settings.socket)
  ---Leaves a document, once a command was done, and has the server leave as it does where nobody is connected for long.
  local function leave(command)
    local document = it.buffer().document
    document.connection:ask({ command })
    vim.cmd('silent write | bwipeout!')
    it.same(vim.wait(it.LIMIT, function()
      return document.connection:ask({ { op = 'stat', doc = document.name } })[1].fault == 'NoDocument'
    end, 20), true, 'it is closed')
    os.remove(settings.socket)
    others.kill(settings)
  end
  local done, why = pcall(function()
    it.settings(settings)
    it.open('shift_jis', '\147\250\n')
    it.keys('Ax')
    leave({ op = 'open', doc = 'another', label = 'shift_jis', bytes = 'k/o=' })
    it.same(vim.wait(it.LIMIT, function()
      return it.read(path):find('\nadopt ') ~= nil
    end, 20), true, 'a record with a document is made short')
    it.open('shift_jis', '\147\250\n')
    leave({ op = 'close', doc = 'another' })
    it.same(vim.wait(it.LIMIT, function()
      return uv.fs_stat(path) == nil
    end, 20), true, 'one without is removed')
    it.open('shift_jis', '\147\250\n')
    others.kill(settings)
    vim.wait(500)
    it.same(uv.fs_stat(path) ~= nil, true, 'that of a killed server stays')
  end)
  record.PAUSE = pause
  others.kill(settings)
  assert(done, why)
end)

it.test('a file that is no record is put aside', false, function()
  local settings = others.settings()
  local path = record.default(settings.socket)
  it.write(path, 'no record\n')
  it.settings(settings)
  it.said('no server takes the record', function()
    it.open('utf-8', 'a\n')
  end)
  it.same(it.read(path .. '.refused'), 'no record\n')
  it.keys('rx')
  it.agree('this one')
  others.kill(settings)
end)

it.test('a Neovim that has no room for a record shares all the same', false, function()
  local before = vim.env.XDG_STATE_HOME
  -- (below a file no folder can be made)
  vim.env.XDG_STATE_HOME = it.work .. '/files/list'
  local settings = others.settings()
  local done, why = pcall(function()
    it.settings(settings)
    it.open('utf-8', 'a\n')
    it.keys('rx')
    it.agree('this one')
  end)
  vim.env.XDG_STATE_HOME = before
  others.kill(settings)
  assert(done, why)
end)

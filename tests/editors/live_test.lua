---Editors that share documents at a socket, this one and others.
local it = require('harness')
local others = require('others')

local shows = others.shows

local function together(name, bytes, call, given)
  others.together(name, 'utf-8', bytes, call, given)
end

local function wait(call, what)
  it.same(vim.wait(it.LIMIT, call, 10), true, what)
end

---Makes splices of a document that this editor shows, as another client does: each is `{ at, del, bytes }`.
local function splice(splices)
  local base64 = require('legacy.base64')
  local document = it.buffer().document
  for i, each in ipairs(splices) do
    local at, del, bytes = unpack(each)
    document.connection:ask({
      { op = 'splice', doc = document.name, rev = document.rev + i - 1, at = at, del = del, bytes = base64.encode(bytes) },
    })
  end
end

together('what one edits, the other shows', 'a\255\nb\n', function(other, path)
  it.same(other.call('lines'), { 'a\239\191\189', 'b' })
  other.call('keys', 'jrx')
  shows({ 'a\239\191\189', 'x' })
  it.same(vim.bo.modified, true)
  it.keys('ggrc')
  other.shows({ 'c\239\191\189', 'x' })
  other.call('agree', 'the other')
  it.agree('this one')
  it.same(it.written(path), 'c\255\nx\n')
end)

together('edits of different lines at once are both kept', 'a\nb\nc\255\n', function(other, path)
  vim.api.nvim_buf_set_lines(0, 2, 2, true, { 'mine' })
  other.call('keys', 'Oyours<Esc>')
  it.sync()
  it.same(it.lines(), { 'yours', 'a', 'b', 'mine', 'c\239\191\189' })
  it.agree('this one')
  other.shows(it.lines())
  other.call('agree', 'the other')
  it.same(it.written(path), 'yours\na\nb\nmine\nc\255\n')
end)

together('edits of one line at once are both kept', 'one two three\255\n', function(other)
  vim.api.nvim_buf_set_text(0, 0, 4, 0, 7, { 'TWO' })
  other.call('keys', '0iX<Esc>Ay<Esc>')
  it.sync()
  it.same(it.lines(), { 'Xone TWO three\239\191\189y' })
  it.agree('this one')
  other.shows(it.lines())
end)

together('edits of the same text at once are both kept, and told', 'one two b\255\n', function(other)
  vim.api.nvim_buf_set_text(0, 0, 4, 0, 7, { 'TWO' })
  other.call('keys', '0wcw2<Esc>')
  it.said('another editor changed the same text; what both put in is there', it.sync)
  it.same(it.lines(), { 'one 2TWO b\239\191\189' })
  it.agree('this one')
  other.shows(it.lines())
  other.call('agree', 'the other')
end)

together('many edits of both in turn', 'a\nb\n', function(other)
  for number = 1, 20 do
    vim.api.nvim_buf_set_lines(0, 0, 0, true, { 'mine' .. number })
    other.call('keys', 'Goyours' .. number .. '<Esc>')
    it.sync()
  end
  it.same(#it.lines(), 42)
  it.agree('this one')
  other.shows(it.lines())
  other.call('agree', 'the other')
end)

together('text of others comes in while text is inserted', 'a\nb\n', function(other)
  other.type('othere')
  it.keys('Grx')
  other.shows({ 'a', 'there', 'x' })
  it.same(other.lua('return vim.api.nvim_get_mode().mode'), 'i')
  other.type('!<Esc>')
  shows({ 'a', 'there!', 'x' })
  other.call('agree', 'the other')
end)

together('text of others waits in Replace mode, and on a command line', 'a\nb\n', function(other)
  for _, keys in ipairs({ 'R', ':' }) do
    other.type(keys)
    it.keys('Grx')
    vim.wait(400)
    it.same(other.lua('return vim.fn.getline(2)'), 'b', keys)
    other.type('<Esc>')
    other.shows({ 'a', 'x' })
    it.keys('Grb')
    other.shows({ 'a', 'b' })
  end
end)

together('a buffer that is not shown asks nothing, and catches up once it is', 'a\nb\n', function(other)
  local number, connection, questions = vim.api.nvim_get_current_buf(), it.buffer().document.connection, 0
  local send = connection.send
  connection.send = function(...)
    questions = questions + 1
    return send(...)
  end
  wait(function()
    return questions > 2
  end, 'it asks')
  vim.o.hidden = true
  vim.cmd('enew')
  vim.wait(300)
  questions = 0
  other.call('keys', 'rx')
  vim.wait(700)
  it.same({ questions, vim.api.nvim_buf_get_lines(number, 0, -1, true) }, { 0, { 'a', 'b' } })
  vim.cmd('tabnew')
  vim.cmd('buffer ' .. number)
  shows({ 'x', 'b' })
  vim.cmd('tabprevious')
  vim.wait(300)
  other.call('keys', 'ry')
  vim.wait(400)
  it.same(vim.api.nvim_buf_get_lines(number, 0, -1, true), { 'x', 'b' })
  vim.cmd('tabnext')
  shows({ 'y', 'b' })
  vim.cmd('tabonly')
  connection.send = nil
end)

together('an editor that asks has nothing to do: it notices that nobody types', 'a\nb\n', function(other)
  other.lua([[
    vim.o.updatetime = 250
    vim.api.nvim_create_autocmd('CursorHold', { callback = function() vim.g.held = true end })
  ]])
  other.type('j')
  -- (to be asked is something to do, so it is asked seldom)
  local tries = it.LIMIT / 4000
  repeat
    vim.wait(4000)
    tries = tries - 1
  until other.lua('return vim.g.held') or tries <= 0
  it.same(other.lua('return vim.g.held'), true)
end)

together('an editor that was away for longer than the program knows', 'a\255\nb\n', function(other)
  vim.o.hidden = true
  local number = vim.api.nvim_get_current_buf()
  vim.api.nvim_buf_set_mark(0, 'a', 2, 0, {})
  vim.cmd('enew')
  vim.wait(200)
  other.lua([[
    local document = require('harness').buffer().document
    for _ = 1, 1100 do
      document:splice({ { at = 0, gone = '', put = 'x' } })
    end
    document:splice({ { at = 0, gone = ('x'):rep(1100), put = 'y\n' } })
  ]])
  vim.cmd('buffer ' .. number)
  shows({ 'y', 'a\239\191\189', 'b' })
  it.same(vim.api.nvim_buf_get_mark(0, 'a'), { 3, 0 })
  it.agree('this one')
end)

-- An edit changes how the bytes behind it are read, though their number of characters and bytes may stay.
for _, row in ipairs({
  { 'iso-2022-jp', 'abc\n\27$B!!!!\27(B\nx\n\27$BF|\27(B\n', { { 4, 3, '' } } },
  { 'iso-2022-jp', 'abc\nx\27$BF|K\\\27(B\nx\27$BF|\27(B\n', { { 12, 3, '' } } },
  { 'iso-2022-jp', 'abc\nabc\nabc\n', { { 4, 0, '\27$B' } } },
  { 'utf-16le', 'a\0\n\0\0\78\1\78\2\78\3\78\n\0\5\78\6\78\n\0', { { 4, 1, '' } } },
  { 'utf-16le', 'a\0\n\0\0\78\1\78\2\78\3\78\n\0\5\78\6\78\n\0', { { 4, 1, '' }, { 5, 0, '\78' } } },
  { 'shift_jis', 'a\n\129 b\nc\n', { { 3, 1, '@' } } },
  { 'utf-8', 'a\nb\240\159\152\128c\nd\n', { { 5, 1, 'x' } } },
  { 'utf-8', 'a\nb\n', { { 0, 0, '\239\187\191' } } },
  { 'utf-8', 'a\0b\0', { { 0, 0, '\255\254' } } },
  { 'utf-8', 'a\r\nb\r\nc\r\n', { { 4, 1, '' } } },
  { 'utf-8', 'a\nb\rc\nd\n', { { 2, 1, 'xyz' } } },
  { 'utf-8', 'a\nb\nc', { { 5, 0, '\n' } } },
  { 'utf-8', 'a\nb\nc\n', { { 5, 1, '' } } },
  { 'utf-8', 'a\nb\n', { { 0, 4, '' } } },
  { 'utf-8', '', { { 0, 0, 'a\nb\n' } } },
  { 'gb18030', 'abcd\n\129\48\129\48x\ny\n', { { 6, 1, '\n' } } },
}) do
  local label, bytes, splices = unpack(row)
  others.together(('bytes that are read anew in %s: %s'):format(label, vim.inspect(splices)), label, bytes, function(other)
    splice(splices)
    it.buffer().sharing:look()
    it.agree('this one')
    it.same(vim.b.legacy_encoding ~= nil, true)
    other.lua('require("harness").buffer().sharing:look()')
    it.same(other.call('lines'), it.lines())
    other.call('agree', 'the other')
    other.call('keys', 'ggOz<Esc>')
    it.buffer().sharing:look()
    it.agree('both')
  end)
end

-- Of a long document only the lines come that another edited.
for label, line in pairs({
  ['utf-8'] = 'a\255\n', shift_jis = '\147\250\129\n', ['utf-16le'] = 'a\0\n\0', ['iso-2022-jp'] = 'x\27$BF|\27(B\n',
}) do
  others.together('lines that are fetched in ' .. label, label, line:rep(200), function(other)
    local connection, most = it.buffer().document.connection, 0
    local ask = connection.ask
    connection.ask = function(self, commands)
      for _, command in ipairs(commands) do
        most = math.max(most, command.op == 'text' and command.to - command.from or 0)
      end
      return ask(self, commands)
    end
    other.call('keys', '100Goabc<Esc>')
    wait(function()
      return it.lines()[101] == 'abc'
    end)
    connection.ask = nil
    it.same({ most > 0, most < 20 }, { true, true }, most .. ' code points')
    it.agree('this one')
  end)
end

together('what one writes is written for the other too', 'a\n', function(other, path)
  other.call('keys', 'rb')
  shows({ 'b' })
  it.same(vim.bo.modified, true)
  other.call('written', path)
  wait(function()
    return not vim.bo.modified
  end)
  it.keys('rc')
  it.same(it.written(path), 'c\n')
end)

together('both write in turn, each behind the other', 'a\n', function(other, path)
  for number = 1, 5 do
    other.call('keys', 'ggrb')
    other.call('written', path)
    other.call('keys', 'Go' .. number .. '<Esc>')
    it.keys('0iy<Esc>')
    it.same(it.written(path), it.buffer().document.bytes)
    it.keys('0ix<Esc>')
    other.call('keys', 'Gox<Esc>')
    it.same(other.call('written', path), other.lua('return require("harness").buffer().document.bytes'))
  end
end)

together('a file that another program changed', 'a\n', function(other, path)
  it.keys('rb')
  it.said('the file has changed: :edit! reads it anew', function()
    it.write(path, 'c\n')
    wait(function()
      return vim.fn.execute('messages'):find('has changed', 1, true) ~= nil
    end)
  end)
  wait(function()
    return other.lua([[return vim.fn.execute('messages')]]):find('has changed', 1, true) ~= nil
  end, 'the other is told too')
  it.same(it.failure('write'):match('the file has changed since it was read'), 'the file has changed since it was read')
  vim.cmd('silent edit!')
  it.same({ it.lines(), vim.bo.modified }, { { 'c' }, false })
  other.shows({ 'c' })
  wait(function()
    return not other.lua('return vim.bo.modified')
  end)
  other.call('keys', 'rd')
  it.same(other.call('written', path), 'd\n')
end)

together('how many others have a file open', 'a\n', function(other, path, server)
  wait(function()
    return vim.b.legacy_others == 1
  end)
  it.same(other.lua('return vim.b.legacy_others'), 1)
  local third = others.editor({ socket = it.buffer().document.connection.words[#it.buffer().document.connection.words - 2] })
  third.edit('utf-8', path)
  wait(function()
    return vim.b.legacy_others == 2
  end)
  third.kill()
  wait(function()
    return vim.b.legacy_others == 1
  end, 'one that was killed')
  it.said('no other editor has the file open any more', function()
    other.lua('vim.cmd("bwipeout!")')
    wait(function()
      return vim.b.legacy_others == 0
    end)
  end)
end)

together('who opened a document leaves, and the other goes on', 'a\255\n', function(other, path)
  it.keys('rb')
  other.shows({ 'b\239\191\189' })
  local rev = other.lua('return require("harness").buffer().document.rev')
  vim.cmd('bwipeout!')
  vim.wait(100)
  other.call('keys', 'rc')
  it.same(other.lua('return require("harness").buffer().document.rev'), rev + 1, 'the document stays open')
  it.same(other.call('written', path), 'c\255\n')
  vim.cmd('LegacyEdit utf-8 ' .. path)
  other.call('keys', 'rd')
  shows({ 'd\239\191\189' })
end)

together('edits that nobody wrote are gone with the last who shows them', 'a\n', function(other, path)
  other.call('keys', 'rb')
  vim.cmd('bwipeout!')
  it.said('made edits that it has not written', function()
    vim.cmd('LegacyEdit utf-8 ' .. path)
  end)
  it.same({ it.lines(), vim.bo.modified }, { { 'b' }, true })
  vim.cmd('bwipeout!')
  other.quit()
  vim.cmd('LegacyEdit utf-8 ' .. path)
  it.same({ it.lines(), vim.bo.modified }, { { 'a' }, false })
end)

together('a document that another client closed is opened again', 'a\255\nb\n', function(other)
  local document = it.buffer().document
  document.connection:ask({ { op = 'close', doc = document.name } })
  it.keys('rx')
  other.shows({ 'x\239\191\189', 'b' })
  other.call('keys', 'Gry')
  shows({ 'x\239\191\189', 'y' })
  it.agree('this one')
  other.call('agree', 'the other')
end)

together('a document that another client opened anew is read anew before it is written', 'a\nb\n', function(other, path)
  vim.o.hidden = true
  local number = vim.api.nvim_get_current_buf()
  it.keys('rx')
  other.shows({ 'x', 'b' })
  other.lua('vim.o.hidden = true; vim.cmd("enew")')
  vim.cmd('enew')
  vim.wait(300)
  other.lua([[
    local document = require('legacy').buffer(1).document
    document.connection:ask({
      { op = 'close', doc = document.name },
      { op = 'open', doc = document.name, label = 'utf-8', bytes = 'egpjCg==' },
      { op = 'splice', doc = document.name, rev = 0, at = 0, del = 0, bytes = '' },
    })
  ]])
  vim.cmd('buffer ' .. number)
  it.same(it.written(path), 'z\nc\n')
  it.same(it.lines(), { 'z', 'c' })
  it.agree('this one')
end)

---Has another client close a document that editors show, and open another one of the same revision in its place.
---@param bytes string
local function replace(bytes)
  local base64 = require('legacy.base64')
  local document = it.buffer().document
  local commands = {
    { op = 'close', doc = document.name },
    { op = 'open', doc = document.name, label = 'utf-8', bytes = base64.encode(bytes) },
  }
  for rev = 0, document.rev - 1 do
    commands[#commands + 1] = { op = 'splice', doc = document.name, rev = rev, at = 0, del = 0, bytes = '' }
  end
  document.connection:ask(commands)
end

together('a document that another client opened in its place is noticed, whatever its revision', 'a\nb\n', function(other, path)
  local sharing = require('legacy.sharing')
  local before = sharing.COMPARE
  sharing.COMPARE = 5
  other.lua("require('legacy.sharing').COMPARE = 5")
  it.keys('rx')
  other.shows({ 'x', 'b' })
  for _, bytes in ipairs({ 'x\nc\n', 'y\nc\nd\n' }) do
    it.said('another editor opened it anew', function()
      replace(bytes)
      shows(vim.split(vim.trim(bytes), '\n'))
    end)
    other.shows(vim.split(vim.trim(bytes), '\n'))
    it.agree('this one')
    other.call('agree', 'the other')
  end
  it.same(it.written(path), 'y\nc\nd\n')
  sharing.COMPARE = before
end)

together('an edit in a document that another client opened in its place is in it, and all is read anew', 'a\nb\n', function(other)
  it.buffer().sharing.timer:stop()
  replace('a\ncd\n')
  it.keys('Grx')
  it.same(it.lines(), { 'a', 'xd' })
  it.agree('this one')
  other.shows({ 'a', 'xd' })
end)

together('an edit of many lines leaves their bytes where another came first', 'z\n\255\n\nend\n', function(other)
  it.buffer().sharing.timer:stop()
  other.call('keys', 'GIx<Esc>')
  vim.cmd('silent %s/$/z/')
  it.sync()
  it.same(it.buffer().document.bytes, 'zz\n\255z\nz\nxendz\n')
  it.agree('this one')
end)

together('bytes that go out in parts are left where another came first', 'a\nb\n', function(other)
  local buffer = it.buffer()
  buffer.sharing.timer:stop()
  other.call('keys', 'Grx')
  buffer.document.part = 2
  it.same(buffer.document:splice({ { at = 0, gone = 'a', put = 'wxyz' } }), false)
  buffer.sharing:look()
  it.same(buffer.document.bytes, 'a\nx\n')
  it.agree('this one')
end)

together('a server that was killed is started again', 'a\255\nb\n', function(other, _, server)
  server:kill('sigkill')
  vim.wait(200)
  it.keys('rx')
  other.call('keys', 'GAc<Esc>')
  shows({ 'x\239\191\189', 'bc' })
  it.agree('this one')
  other.call('agree', 'the other')
  it.buffer().document.connection.server:kill('sigkill')
end)

together('lines that who starts the server again had not got are kept', 'a\nb\nc\n', function(other, _, server)
  vim.o.hidden = true
  local number = vim.api.nvim_get_current_buf()
  vim.cmd('enew')
  vim.wait(300)
  other.call('keys', 'jccmore<CR>lines<Esc>')
  server:kill('sigkill')
  wait(function()
    return other.lua('return require("harness").buffer().document.connection.ended')
  end)
  vim.cmd('buffer ' .. number)
  it.keys('ggrx')
  other.shows({ 'x', 'b', 'c' })
  it.same(other.lua([[return vim.fn.getreg('"')]]), 'a\nmore\nlines\n')
  it.agree('this one')
  it.buffer().document.connection.server:kill('sigkill')
end, { record = '' })

together('a server that another has started again is found', 'a\255\nb\n', function(other, _, server)
  it.keys('rx')
  other.shows({ 'x\239\191\189', 'b' })
  server:kill('sigkill')
  wait(function()
    return it.buffer().document.connection.ended
  end)
  vim.wait(1500)
  it.same(it.buffer().document.connection.ended, true, 'an editor that only shows does not start it')
  other.call('keys', 'GAc<Esc>')
  vim.fn.setreg('"', 'mine')
  shows({ 'x\239\191\189', 'bc' })
  it.same(vim.fn.getreg('"'), 'mine', 'nothing was lost')
  wait(function()
    return vim.b.legacy_others == 1
  end)
  it.same(it.buffer().document.connection.ended, false)
  other.lua('require("harness").buffer().document.connection.server:kill("sigkill")')
end)

it.test('a file that another has open in another encoding', false, function()
  local settings = others.settings()
  it.settings(settings)
  local path = it.open('utf-8', 'a\n')
  local server = it.buffer().document.connection.server
  local other = others.editor(settings)
  it.same(other.call('failure', 'LegacyEdit utf-16le ' .. path),
    'legacy: another editor has opened the file, in UTF-8')
  other.edit('utf8', path)
  it.same(other.call('lines'), { 'a' })
  other.quit()
  server:kill('sigkill')
end)

it.test('a socket at which nothing can listen', false, function()
  local socket = it.work .. '/no/socket'
  it.settings({ socket = socket })
  local path = it.work .. '/live.txt'
  it.write(path, 'a\n')
  it.same(it.failure('LegacyEdit utf-8 ' .. path), 'legacy: gate: cannot listen on ' .. socket)
end)

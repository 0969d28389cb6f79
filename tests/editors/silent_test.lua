---A program that gives no reply for a while, or for long, or that has no place left: who types doesn't wait for it.
local it = require('harness')
local others = require('others')
local terminal = require('terminal')

local uv = vim.uv or vim.loop

local function wait(call, what)
  it.same(vim.wait(it.LIMIT, call, 10), true, what)
end

---Has another editor look every few milliseconds whether it has a turn, and know the longest time without one.
local function measure(other)
  other.lua([[
    local uv = vim.uv or vim.loop
    local timer, last = uv.new_timer(), uv.hrtime()
    Longest = 0
    timer:start(5, 5, vim.schedule_wrap(function()
      local now = uv.hrtime()
      Longest, last = math.max(Longest, (now - last) / 1000000), now
    end))
  ]])
end

---Has another editor find a program silent sooner than it would.
local function hasten(other)
  other.lua("require('legacy.connection').LOOK = 20")
end

---Runs a test of an editor whose program is stopped.
---@param name string
---@param bytes string
---@param given table
---@param call fun(other: table, path: string, go_on: fun())
local function stopped(name, bytes, given, call)
  it.test(name, false, function()
    local settings = vim.tbl_extend('force', others.settings(), given)
    local path = settings.socket .. '.txt'
    it.write(path, bytes)
    local other = others.editor(settings)
    hasten(other)
    other.edit('utf-8', path)
    local server = others.server(settings)
    uv.kill(server, 'sigstop')
    local done, why = xpcall(call, debug.traceback, other, path, function()
      uv.kill(server, 'sigcont')
    end)
    pcall(uv.kill, server, 'sigcont')
    other.quit()
    others.kill(settings)
    assert(done, why)
  end)
end

stopped('who types does not wait for a server that stands still', 'a\255\nb\n', {}, function(other, path, go_on)
  measure(other)
  other.type('Gotext')
  other.type('<CR>more<Esc>')
  other.type('gg0x')
  other.type('ux')
  it.same(other.call('lines'), { '\239\191\189', 'b', 'text', 'more' })
  local longest = other.lua('return Longest')
  it.same(longest < 1000, true, ('%.0f ms without a turn'):format(longest))
  go_on()
  wait(function()
    return other.lua('return require("harness").buffer().document.bytes') == '\255\nb\ntext\nmore\n'
  end, other.lua('return require("harness").buffer().document.bytes'))
  other.call('agree', 'the editor')
  it.same(other.call('written', path), '\255\nb\ntext\nmore\n')
  other.call('undo', 3)
  it.same(other.lua('return require("harness").buffer().document.bytes'), 'a\255\nb\n')
end)

stopped('a silent server is said, and then nothing can be typed', 'a\n', {}, function(other, _, go_on)
  other.type('ox')
  wait(function()
    return other.lua('return vim.b.legacy_status or ""'):find('no reply for %d+ s') ~= nil
  end, 'it is said')
  it.same(other.lua('return vim.wo.statusline'):find('legacy_status', 1, true) ~= nil, true, 'in the status line')
  wait(function()
    return not other.lua('return vim.bo.modifiable')
  end, 'nothing can be typed')
  it.same(other.lua([[return vim.fn.execute('messages')]]):find("the buffer can't be changed", 1, true) ~= nil, true)
  go_on()
  wait(function()
    return other.lua('return vim.bo.modifiable and vim.b.legacy_status == ""')
  end, 'it can again')
  it.same(other.lua('return vim.wo.statusline'), '')
  other.type('y<Esc>')
  wait(function()
    return other.lua('return require("harness").buffer().document.bytes'):find('^a\nxy?\n$') ~= nil
  end)
  other.call('agree', 'the editor')
end)

stopped('an editor goes on alone where it is set so', 'a\255\nb\n', { silent = 'alone' }, function(other, path)
  other.type('Gox<Esc>')
  wait(function()
    return other.lua([[return vim.fn.execute('messages')]]):find('goes on with one of its own', 1, true) ~= nil
  end, 'it is said')
  wait(function()
    return other.lua('return require("harness").buffer().document.bytes') == 'a\255\nb\nx\n'
  end)
  other.type('Goy<Esc>')
  it.same(other.call('written', path), 'a\255\nb\nx\ny\n')
  other.call('undo', 2)
  it.same(other.call('written', path), 'a\255\nb\n')
end)

stopped('to write ends where a server stands still', 'a\n', {}, function(other, path, go_on)
  other.type('ox<Esc>')
  it.same(other.call('failure', 'write'), 'legacy: not written: the program gives no reply')
  it.same(it.read(path), 'a\n')
  go_on()
  it.same(other.call('written', path), 'a\nx\n')
end)

it.test('an editor for which no place is left says so', false, function()
  local settings = others.settings()
  it.settings(settings)
  local path = it.open('utf-8', 'a\n')
  local server, pipes = it.buffer().document.connection.server, {}
  for i = 1, 15 do
    pipes[i] = uv.new_pipe(false)
    pipes[i]:connect(settings.socket)
  end
  vim.wait(200)
  local other = others.editor(settings)
  local began = uv.hrtime()
  it.same(other.call('failure', 'LegacyEdit utf-8 ' .. path),
    ('legacy: all 16 places are taken at %s; an editor there has to leave first'):format(settings.socket))
  it.same((uv.hrtime() - began) / 1e9 < 20, true, 'it is said soon')
  pipes[1]:close()
  vim.wait(200)
  other.edit('utf-8', path)
  it.same(other.call('lines'), { 'a' })
  for i = 2, 15 do
    pipes[i]:close()
  end
  other.quit()
  server:kill('sigkill')
end)

terminal.within('CTRL-C ends what waits for a server that stands still', 'utf-8', 'a\n', others.settings(), function(other, path)
  local settings = other.settings
  local server = others.server(settings)
  uv.kill(server, 'sigstop')
  other.press(':LegacyEdit! utf-8 ' .. path, 'Enter')
  vim.wait(1500)
  other.press('C-c')
  wait(function()
    return other.screen():find('interrupted', 1, true) ~= nil
  end, other.screen())
  uv.kill(server, 'sigcont')
end)

terminal.summary()

it.test('who leaves Insert mode does not wait for a server that stands still', false, function()
  local settings = others.settings()
  local path = settings.socket .. '.txt'
  it.write(path, 'one\ntwo\n')
  local one, other = others.editor(settings), others.editor(settings)
  one.edit('utf-8', path)
  other.edit('utf-8', path)
  local server = others.server(settings)
  local done, why = xpcall(function()
    one.type('ggAq')
    other.call('keys', 'GAw<Esc>')
    -- (it comes while text is inserted)
    one.shows({ 'oneq', 'twow' })
    uv.kill(server, 'sigstop')
    measure(one)
    one.type('q')
    vim.wait(100)
    vim.defer_fn(function()
      uv.kill(server, 'sigcont')
    end, 3000)
    one.type('q<Esc>')
    one.type('Iq<Esc>')
    local longest = one.lua('return Longest')
    it.same(longest < 1500, true, longest .. ' ms')
    other.shows({ 'qoneqqq', 'twow' })
    one.shows({ 'qoneqqq', 'twow' })
    one.call('agree', 'one')
    it.same(one.lua('return require("harness").buffer().document.rev') <= 5, true, 'each is sent once')
  end, debug.traceback)
  pcall(uv.kill, server, 'sigcont')
  one.quit()
  other.quit()
  others.kill(settings)
  assert(done, why)
end)

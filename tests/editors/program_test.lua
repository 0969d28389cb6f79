---The program: what isn't there, what ends, what is too much, and edits that go to it by themselves.
local it = require('harness')

local function refusal(settings, label)
  it.settings(settings)
  local path = it.work .. '/program.txt'
  it.write(path, 'a\n')
  return it.failure(('LegacyEdit! %s %s'):format(label, path))
end

it.test('a program that isn\'t there', false, function()
  it.same(refusal({ gate = it.work .. '/no-gate' }, 'utf-8'), ("legacy: the program '%s/no-gate' can't be started "
    .. "(ENOENT: no such file or directory); the setting 'gate' names it"):format(it.work))
  it.same(it.failure('write'), 'legacy: the buffer shows no document')
end)

it.test('a failure in a script of Lua', false, function()
  it.settings({ gate = it.work .. '/no-gate' })
  local path = it.work .. '/program.txt'
  it.write(path, 'a\n')
  local done, why = pcall(vim.cmd, 'LegacyEdit! utf-8 ' .. path)
  it.same({ done, why:find("can't be started", 1, true) ~= nil }, { false, true })
  it.said("can't be started", function()
    pcall(vim.cmd, 'edit! legacy://utf-8/' .. path)
    vim.wait(it.LIMIT, function()
      return vim.fn.execute('messages'):find('legacy', 1, true) ~= nil
    end, 10)
  end)
end)

it.test('a program that ends', false, function()
  it.same(refusal({ gate = '/bin/false', indexes = it.work }, 'utf-8'),
    ("legacy: the program '/bin/false stdio --indexes %s' ended"):format(it.work))
end)

it.test('a folder without index files', false, function()
  local name = "legacy: 'Shift_JIS' can't be opened: it needs index files, and "
  it.same(refusal({ indexes = it.work }, 'Shift_JIS'), ("%sthe folder '%s' has none"):format(name, it.work))
  it.same(refusal({ indexes = it.work .. '/no' }, 'Shift_JIS'), ("%s'%s/no' is no folder"):format(name, it.work))
  require('legacy').setup({ gate = it.gate })
  local path = it.work .. '/program.txt'
  it.same(it.failure('LegacyEdit! Shift_JIS ' .. path), name .. "the setting 'indexes' names no folder")
end)

it.test('what is found without settings', false, function()
  local config = require('legacy.config')
  local function found()
    local settings = config.get()
    return { settings.gate, settings.indexes, settings.labels }
  end
  require('legacy').setup({})
  it.same(found(), { 'gate' })
  local standard = it.work .. '/gate/standard'
  vim.fn.mkdir(standard, 'p')
  it.write(standard .. '/index-jis0208.txt', '')
  it.write(standard .. '/encodings.json', '')
  it.same(found(), { 'gate', standard, standard .. '/encodings.json' })
  vim.env.GATE, vim.env.GATE_INDEXES = '/a/gate', '/b'
  it.same(found(), { '/a/gate', '/b' })
  vim.env.GATE, vim.env.GATE_INDEXES = nil, nil
  vim.fn.delete(it.work .. '/gate', 'rf')
end)

it.test('an encoding that is none', false, function()
  local hint = it.indexes and '' or ": without a label file the Encoding Standard's 40 names are all"
  it.same(refusal({}, 'cp437'), "legacy: 'cp437' is no encoding" .. hint)
  it.same(refusal({}, 'replacement'), "legacy: 'replacement' is an encoding that nothing is read in")
  it.same(it.failure('LegacyEdit utf-8'), 'legacy: :LegacyEdit takes an encoding and a file')
end)

it.test('names that editors use', true, function()
  it.open('cp932', 'a\n')
  it.same(vim.b.legacy_encoding, 'Shift_JIS')
end)

it.test('settings', false, function()
  it.same(pcall(it.settings, { gates = 'x' }), false)
  it.same(pcall(it.settings, { refused = 'x' }), false)
  it.same(pcall(it.settings, { silent = 'x' }), false)
  it.same(pcall(it.settings, { keep = 1 }), false)
  require('legacy').setup({})
  vim.g.legacy_gate = it.gate
  vim.cmd('LegacyEdit utf-8 ' .. it.work .. '/settings.txt')
  it.same(vim.b.legacy_encoding, 'UTF-8')
  vim.g.legacy_gate = nil
end)

it.test('a program that ended is started again', false, function()
  local path = it.open('utf-8', 'a\255\n')
  it.keys('rb')
  it.buffer().document.connection:stop()
  it.keys('rc')
  it.same(it.written(path), 'c\255\n')
  it.undo(2)
  it.same(it.written(path), 'a\255\n')
end)

it.test('a program that ends within an undo', false, function()
  local path = it.open('utf-8', '\255a\n')
  it.keys('x')
  local document = it.buffer().document
  local splice = document.splice
  document.splice = function()
    error('legacy: the program ended', 0)
  end
  vim.cmd('silent undo')
  it.same(pcall(it.sync), false)
  document.splice = splice
  it.same(it.written(path), '\255a\n')
end)

it.test('an edit is one round trip, and so is what is damaged', false, function()
  it.open('utf-8', ('a\255\n'):rep(20))
  local connection, trips = it.buffer().document.connection, 0
  local ask = connection.ask
  connection.ask = function(...)
    trips = trips + 1
    return ask(...)
  end
  it.keys('rb')
  it.same(trips, 1)
  it.buffer():show()
  it.same(trips, 2)
  connection.ask = nil
end)

it.test('a change whose plan finds no memory is made anew', false, function()
  local path = it.open('utf-8', '\255a\n')
  local connection = it.buffer().document.connection
  local ask = connection.ask
  connection.ask = function(self, commands)
    local replies = ask(self, commands)
    replies[1] = commands[1].op == 'plan' and { fault = 'OutOfMemory' } or replies[1]
    return replies
  end
  it.same(pcall(it.keys, '$rb'), false)
  it.same(it.written(path), '\255b\n')
  it.undo()
  it.same(it.written(path), '\255a\n')
end)

it.test('edits go to the program by themselves', false, function()
  it.open('utf-8', 'a\255\n')
  vim.api.nvim_feedkeys('rb', 'nx', false)
  local arrived = vim.wait(it.LIMIT, function()
    return it.buffer().document.bytes == 'b\255\n'
  end, 10)
  it.same(arrived, true)
  vim.api.nvim_feedkeys('$rc', 'nx', false)
  local shown = vim.wait(it.LIMIT, function()
    return #vim.diagnostic.get(0) == 0
  end, 10)
  it.same(shown, true, 'the diagnostic is gone')
end)

it.test('a buffer that is gone closes its document', false, function()
  local document
  for _ = 1, 70 do
    it.open('utf-8', 'a\n')
    document = it.buffer().document
    vim.cmd('bwipeout!')
  end
  local done, why = pcall(document.text, document)
  it.same({ done, why }, { false, 'legacy: stat was refused: NoDocument' })
end)

it.test('two buffers', false, function()
  local first = it.open('utf-8', 'a\255\n')
  local second = it.open('utf-16le', 'a\0\n\0')
  it.keys('rb')
  it.same(it.written(second), 'b\0\n\0')
  vim.cmd('silent buffer ' .. vim.fn.bufnr('1.txt'))
  vim.cmd('silent edit legacy://utf-8/' .. first)
  it.keys('rc')
  it.same(it.written(first), 'c\255\n')
end)

-- The greatest document is found by asking, so the test holds if the limit is at least this. (Smaller ones would take time.)
it.test('the greatest document', false, function()
  local size = 8388608
  local path = it.work .. '/large.txt'
  local function opens(bytes)
    it.write(path, ('x'):rep(bytes - 1) .. '\n')
    local why = it.failure('LegacyEdit! utf-8 ' .. path)
    if why ~= '' then
      it.same(why, ('legacy: the file has %d bytes, more than the program takes'):format(bytes))
    end
    return why == ''
  end
  while opens(2 * size) do
    size = 2 * size
  end
  it.same(opens(size), true)
  it.said('taken back: the document would be longer than the program takes', function()
    it.keys('iy<Esc>')
  end)
  it.keys('x')
  it.keys('iy<Esc>')
  it.same(it.written(path) == 'y' .. ('x'):rep(size - 2) .. '\n', true)
  it.keys('dd')
  it.undo()
  it.same(it.written(path) == 'y' .. ('x'):rep(size - 2) .. '\n', true, 'undone')
end)

it.test('a text longer than a command takes', false, function()
  it.settings({ part = 60 })
  local path = it.open('utf-8', 'a\255b\n')
  local long = ('é≒x\n'):rep(40)
  vim.api.nvim_buf_set_text(0, 0, 1, 0, 1, vim.split(long, '\n', { plain = true }))
  it.same(it.written(path), 'a' .. long .. '\255b\n')
  it.undo()
  it.same(it.written(path), 'a\255b\n')
  it.redo()
  it.same(it.written(path), 'a' .. long .. '\255b\n')
end)

---A server that ends, and comes again: what was being sent is found out, and is in the document once; and one that is killed
---in mid-session, whose record has what it had acknowledged.
local cut = require('cutting').cut
local it = require('harness')
local others = require('others')
local typists = require('typists')

local shows = others.shows

---Undoes or redoes as one who types does.
local function type(keys)
  vim.cmd('silent normal ' .. vim.api.nvim_replace_termcodes(keys, true, false, true))
  it.sync()
end

---That the connection was cut, and is another one now.
local function was_cut(before)
  it.same(it.buffer().document.connection ~= before, true, 'the connection was made again')
end

for most = 0, 1 do
  local function together(name, bytes, call)
    others.together(('%s (%s)'):format(name, most == 0 and 'not made' or 'made'), 'utf-8', bytes, call)
  end

  together('an edit whose reply is lost', 'a\255\nb\n', function(other, path)
    local connection = it.buffer().document.connection
    cut(most)
    it.keys('rx')
    was_cut(connection)
    it.same({ it.lines(), it.buffer().document.rev }, { { 'x\239\191\189', 'b' }, 1 })
    it.agree('this one')
    it.undo()
    it.same(it.buffer().document.bytes, 'a\255\nb\n')
    it.redo()
    it.same(it.written(path), 'x\255\nb\n')
    other.shows({ 'x\239\191\189', 'b' })
    other.call('agree', 'the other')
  end)

  together('an undo whose reply is lost', 'a\255\nb\n', function(_, path)
    it.keys('$x')
    local connection = it.buffer().document.connection
    cut(most)
    it.undo()
    was_cut(connection)
    it.same({ it.lines(), it.buffer().document.rev }, { { 'a\239\191\189', 'b' }, 2 })
    it.agree('this one')
    it.redo()
    it.same(it.written(path), 'a\nb\n')
  end)

  together('an edit whose reply is lost, and one of another', 'a\255\nb\n', function(other)
    cut(most, function()
      other.call('keys', 'Gry')
    end)
    it.keys('rx')
    shows({ 'x\239\191\189', 'y' })
    it.agree('this one')
    other.shows({ 'x\239\191\189', 'y' })
    other.call('agree', 'the other')
    it.same(it.buffer().document.rev, 2)
    if most == 1 then
      -- (one that comes second is one that Neovim's undo has forgotten)
      type('u')
      other.shows({ 'a\239\191\189', 'y' })
    end
  end)

  together('an edit whose reply is lost, and one of another in the same line', 'one two\n', function(other)
    cut(most, function()
      other.lua('require("harness").buffer().sharing:look()')
      other.call('keys', 'ggAz<Esc>')
    end)
    it.keys('ix<Esc>')
    shows({ 'xone twoz' })
    it.agree('this one')
    other.shows({ 'xone twoz' })
  end)

  together('an undo whose reply is lost, behind an edit of another', 'a\255\nb\n', function(other)
    it.keys('$x')
    other.shows({ 'a', 'b' })
    other.call('keys', 'Gry')
    shows({ 'a', 'y' })
    cut(most)
    type('u')
    shows({ 'a\239\191\189', 'y' })
    it.agree('this one')
    type('<C-R>')
    other.shows({ 'a', 'y' })
  end)
end

for most = 0, 1 do
  local function together(name, bytes, call)
    others.together(('%s (%s)'):format(name, most == 0 and 'not made' or 'made'), 'utf-8', bytes, call)
  end

  together('edits at once whose reply is lost are all made, or none', 'a\nb\nc\nd\n\255e\n', function(other, path)
    local connection = it.buffer().document.connection
    cut(most)
    it.keys(':%s/$/!/<CR>')
    was_cut(connection)
    it.same(it.lines(), { 'a!', 'b!', 'c!', 'd!', '\239\191\189e!' })
    it.same(it.buffer().document.rev, 1)
    it.agree('this one')
    it.undo()
    it.same(it.buffer().document.bytes, 'a\nb\nc\nd\n\255e\n')
    it.redo()
    it.same(it.written(path), 'a!\nb!\nc!\nd!\n\255e!\n')
    other.shows(it.lines())
  end)

  together('edits at once whose reply is lost, and one of another', 'a\nb\n\255c\n', function(other, path)
    cut(most, function()
      other.lua('require("harness").buffer().sharing:look()')
      other.call('keys', 'GAz<Esc>')
    end)
    it.keys(':%s/$/!/<CR>')
    it.same(vim.wait(it.LIMIT, function()
      local lines = it.lines()
      return lines[1] == 'a!' and lines[2] == 'b!' and lines[3]:find('^\239\191\189c[z!][z!]$') ~= nil
    end, 20), true, vim.inspect(it.lines()))
    it.agree('this one')
    other.shows(it.lines())
    it.same(it.written(path), it.buffer().document.bytes)
  end)
end

others.together('an edit whose reply is lost, and more of another than the program knows', 'utf-8', 'a\255\nb\n', function(other)
  cut(0, function()
    other.lua([[
      local document = require('harness').buffer().document
      for _ = 1, 1100 do
        document:splice({ { at = 5, gone = '', put = 'y' } })
      end
      document:splice({ { at = 5, gone = ('y'):rep(1100), put = 'y\n' } })
    ]])
  end)
  vim.fn.setreg('"', 'mine')
  it.keys('rx')
  shows({ 'x\239\191\189', 'b', 'y' })
  it.same(vim.fn.getreg('"'), 'mine', 'it is the same document')
  it.agree('this one')
  other.shows({ 'x\239\191\189', 'b', 'y' })
end)

others.together('an edit of which nothing is known until somebody listens again', 'utf-8', 'a\nb\n', function(_, path)
  local document = it.buffer().document
  for most = 0, 1 do
    cut(most, function()
      error('legacy: nobody listens', 0)
    end)
    it.same(pcall(it.keys, 'Ax<Esc>'), false)
    it.sync()
    it.agree('this one')
    it.same({ it.lines()[1], document.rev }, { 'a' .. ('x'):rep(most + 1), most + 1 })
  end
  it.same(it.written(path), 'axx\nb\n')
end)

if not others.has_records then
  io.stdout:write('3 skipped, for which the program would have to keep a record\n')
end

---Runs a test of two editors whose server keeps a record.
---@param call fun(given: table, one: table, other: table, path: string)
local function recorded(name, bytes, call)
  if not others.has_records then
    return
  end
  it.test(name, false, function()
    local given = others.settings_with_record()
    local path = given.socket .. '.txt'
    it.write(path, bytes)
    local one, other = others.editor(given), others.editor(given)
    local done, why = xpcall(function()
      one.edit('utf-8', path)
      other.edit('utf-8', path)
      call(given, one, other, path)
    end, debug.traceback)
    one.quit()
    other.quit()
    others.kill(given)
    assert(done, why)
  end)
end

---Waits until two editors have the same, and returns its bytes. (Their bytes alone are equal too while one has much to send.)
local function agreed(one, other)
  typists.agree(one, other)
  return one.lua('return require("harness").buffer().document.bytes')
end

recorded('a server that is killed while both type', '\255\n\n\n\n', function(given, one, other, path)
  local typed, kills = { 0, 0 }, 0
  one.type('ggA')
  other.type('GA')
  -- (on a busy machine a server may not have come again when it is to be killed)
  local number = 0
  while number < 400 or kills < 6 and number < 4000 do
    number = number + 1
    local which = math.random(2)
    local keys = which == 1 and 'q' or 'w'
    typed[which] = typed[which] + 1;
    ({ one, other })[which].type(keys)
    if number % 40 == 20 then
      kills = kills + (others.kill(given) and 1 or 0)
      vim.wait(math.random(20))
    end
  end
  one.type('<Esc>')
  other.type('<Esc>')
  local wanted = '\255' .. ('q'):rep(typed[1]) .. '\n\n\n' .. ('w'):rep(typed[2]) .. '\n'
  it.same(agreed(one, other), wanted)
  it.same(kills > 5, true, kills .. ' kills')
  it.same(one.call('written', path), wanted)
  it.same(one.lua('return vim.bo.modified'), false)
end)

recorded('edits that an editor had made that is gone too', 'a\255\nb\n', function(given, one, other, path)
  one.call('keys', 'rx')
  other.shows({ 'x\239\191\189', 'b' })
  one.kill()
  other.kill()
  others.kill(given)
  local last = others.editor(given)
  last.edit('utf-8', path)
  it.same(last.call('lines'), { 'x\239\191\189', 'b' })
  it.same(last.call('failure', 'write'):find('the file has changed', 1, true) ~= nil, true)
  last.lua('vim.cmd("silent write!")')
  it.same(it.read(path), 'x\255\nb\n')
  last.call('keys', 'ry')
  it.same(last.call('written', path), 'y\255\nb\n')
  last.quit()
end)

if others.compacts then
  recorded('a server that comes again with a record that is compacted', 'a\255\nb\n', function(given, one, other, path)
    local wanted = 'a\255\nb\n'
    for number = 1, 8 do
      -- (one types at once what the other mostly doesn't know yet when the server ends)
      one.call('keys', 'ggIx<Esc>')
      wanted = 'x' .. wanted
      if number % 2 == 0 then
        it.same(agreed(one, other), wanted)
      end
      local labels = (it.indexes or it.work) .. '/encodings.json'
      local words = { it.gate, 'compact', '--indexes', it.indexes or it.work, given.record }
      vim.list_extend(words, vim.fn.filereadable(labels) == 1 and { '--labels', labels } or {})
      local is_compacted = vim.wait(it.LIMIT, function()
        -- (an editor with an edit to send may have started the next server already, which records there)
        others.kill(given)
        local said = vim.fn.system(words)
        return vim.v.shell_error == 0 or not said:find('another gate records', 1, true) and error(said)
      end, 1)
      it.same(is_compacted, true, 'it is compacted')
      other.call('keys', 'GAy<Esc>')
      wanted = wanted:sub(1, -2) .. 'y\n'
      it.same(agreed(one, other), wanted)
    end
    it.same(one.call('written', path), wanted)
  end)
end

recorded('a record that cannot be written', 'a\n', function(given, one, other, path)
  one.call('keys', 'rx')
  other.quit()
  others.kill(given)
  os.remove(given.record)
  vim.fn.mkdir(given.record)
  it.same(pcall(one.call, 'keys', 'ry'), false)
  one.lua('require("harness").settings(...)', { socket = given.socket })
  it.same(one.call('written', path), 'y\n')
  vim.fn.delete(given.record, 'd')
end)

---Edits of many lines at once: few commands, and as many seconds of this Neovim's own processor as they may cost.
local it = require('harness')
local others = require('others')

---Seconds of the processor that a call takes in this process.
local function cost(call)
  local began = os.clock()
  call()
  return os.clock() - began
end

---Lines of a text, of which one in a hundred is damaged or none.
local function lines_of(count, is_damaged)
  local list = {}
  for i = 1, count do
    list[i] = ('line %d with some text to replace'):format(i) .. (is_damaged and i % 100 == 0 and '\255' or '')
  end
  return table.concat(list, '\n') .. '\n'
end

---Counts the commands of a connection that are no questions, and all round trips.
local function count(connection)
  local counts = { commands = 0, trips = 0 }
  local ask = connection.ask
  connection.ask = function(self, commands, ...)
    counts.trips = counts.trips + 1
    for _, command in ipairs(commands) do
      counts.commands = counts.commands + (command.op:find('^change') and 1 or 0)
    end
    return ask(self, commands, ...)
  end
  return counts
end

others.together('8,000 lines are changed in a shared document', 'utf-8', lines_of(8000, true), function(other, path)
  local counts = count(it.buffer().document.connection)
  local seconds = cost(function()
    vim.cmd('silent %s/some/any/')
    it.sync()
  end)
  it.same({ counts.commands, counts.trips < 40 }, { 8, true }, counts.trips .. ' round trips')
  it.same(seconds < 2, true, seconds .. ' s')
  it.agree('this one')
  local changed = it.buffer().document.bytes
  it.same(changed, (lines_of(8000, true):gsub('some', 'any')))
  it.undo()
  it.same(it.buffer().document.bytes == lines_of(8000, true), true, 'undone')
  it.redo()
  it.same(it.written(path) == changed, true, 'done again')
  it.same(vim.wait(it.LIMIT, function()
    return other.lua('return vim.fn.getline(8000)'):find('any text', 1, true) ~= nil
  end, 50), true, 'the other has them')
  other.call('agree', 'the other')
end)

it.test('100,000 lines are changed', false, function()
  local path = it.open('utf-8', lines_of(100000, false))
  local seconds = cost(function()
    vim.cmd('silent %s/some/any/')
    it.sync()
  end)
  it.same(seconds < 10, true, seconds .. ' s')
  it.same(it.written(path) == lines_of(100000, false):gsub('some', 'any'), true)
  it.undo()
  it.same(it.written(path) == lines_of(100000, false), true)
end)

-- Of what changes many lines, each in a document of its own.
for name, command in pairs({
  [':g'] = 'global/7/delete', ['gq'] = 'set textwidth=20 | normal! gggqG', [':sort'] = 'sort! n', [':normal'] = '%normal! Ax',
  [':move'] = 'global/^/move 0', [':join'] = '%join', ['a formatter'] = 'lua vim.api.nvim_buf_set_lines(0, 0, -1, true, '
    .. 'vim.tbl_map(function(line) return (line:gsub("e", "E")) end, vim.api.nvim_buf_get_lines(0, 0, -1, true)))',
}) do
  it.test(name .. ' is undone to the byte', false, function()
    local before = lines_of(400, false):gsub('line 3', 'line\255 3')
    local path = it.open('utf-8', before)
    vim.cmd('silent ' .. command)
    it.sync()
    vim.bo.textwidth = 0
    it.agree(name)
    local changed = it.buffer().document.bytes
    it.same(changed == before, false)
    it.undo()
    it.same(it.buffer().document.bytes == before, true, 'undone')
    it.redo()
    it.same(it.written(path) == changed, true, 'done again')
  end)
end

it.test('of many edits those that are refused are taken back, and all others are there', false, function()
  local path = it.open('x-user-defined', ('ab\n'):rep(3000))
  vim.cmd([[silent %s/a/\=line('.') % 100 == 0 ? 'あx' : 'y'/]])
  it.sync()
  local want = {}
  for i = 1, 3000 do
    want[i] = i % 100 == 0 and 'xb\n' or 'yb\n'
  end
  it.agree('taken back')
  it.same(it.written(path) == table.concat(want), true)
end)

---Milliseconds of the processor that undo of a change of each line takes.
local function undo_time(is_damaged)
  it.open('utf-8', lines_of(6000, is_damaged))
  vim.cmd('silent %s/some/any/')
  it.sync()
  it.buffer():show()
  collectgarbage()
  local seconds = cost(function()
    vim.cmd('silent undo')
  end)
  it.sync()
  it.agree('undone')
  return seconds * 1000
end

it.test('undo of many edits takes no longer where the file is damaged', false, function()
  local plain, damaged = math.huge, math.huge
  for _ = 1, 3 do
    plain, damaged = math.min(plain, undo_time(false)), math.min(damaged, undo_time(true))
  end
  it.same(damaged <= 2 * plain, true, ('%.0f ms, and %.0f where nothing is damaged'):format(damaged, plain))
  it.same(vim.wait(it.LIMIT, function()
    return #vim.diagnostic.get(0) == 60
  end, 20), true, 'the damaged places are shown again')
end)

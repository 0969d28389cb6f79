---Undo and redo, to the byte.
local it = require('harness')

local ACTS = {
  'x', 'dd', 'yyp', 'J', 'iq<Esc>', 'onew line<Esc>', 'ddp', '~', 'A日<Esc>', 'Oab<Esc>', 'D', '3x', 'r日', 'xp',
  'ccz<Esc>', 'dw', '>>', 'i<CR><Esc>', 'dG', 'ggdd',
}

local function random_edit()
  vim.fn.cursor(math.random(vim.fn.line('$')), 1)
  vim.fn.cursor(0, math.random(math.max(vim.fn.col('$') - 1, 1)))
  it.keys(ACTS[math.random(#ACTS)])
end

for _, file in ipairs(it.files()) do
  it.test(file.name .. ': forty random edits', file.needs_indexes, function()
    math.randomseed(7)
    local path = it.open(file.label, file.before)
    local states = { [0] = file.before }
    for i = 1, 40 do
      random_edit()
      it.agree('edit ' .. i)
      states[vim.fn.undotree().seq_cur] = it.buffer().document.bytes
    end
    local last = vim.fn.undotree().seq_cur
    local undone = 0
    while vim.fn.undotree().seq_cur > 0 do
      undone = undone + 1
      it.same(undone <= last, true, 'each undo leads back')
      it.undo()
      it.agree('undo')
      it.same(it.buffer().document.bytes, states[vim.fn.undotree().seq_cur], 'undone to ' .. vim.fn.undotree().seq_cur)
    end
    it.same(it.written(path), file.before, 'all undone')
    for _ = 1, 60 do
      vim.cmd('silent undo ' .. math.random(0, last))
      it.sync()
      it.agree('jump')
      it.same(it.buffer().document.bytes, states[vim.fn.undotree().seq_cur], 'gone to ' .. vim.fn.undotree().seq_cur)
    end
  end)
end

it.test('undo across a branch', false, function()
  local path = it.open('utf-8', '\255 a\n')
  it.keys('0x')
  it.undo()
  it.keys('Ab<Esc>')
  it.same(it.written(path), '\255 ab\n')
  vim.cmd('silent earlier 1')
  it.sync()
  vim.cmd('silent undo 1')
  it.same(it.written(path), ' a\n', 'the first branch')
  vim.cmd('silent undo 2')
  it.same(it.written(path), '\255 ab\n', 'the second branch')
  vim.cmd('silent undo 0')
  it.same(it.written(path), '\255 a\n')
end)

it.test('several steps between two looks', false, function()
  local path = it.open('utf-8', '\255a\n\254b\n\253c\nd\n')
  for _ = 1, 3 do
    it.end_step()
    vim.cmd('normal! dd')
  end
  it.same(it.written(path), 'd\n')
  vim.cmd('silent undo')
  it.same(it.written(path), '\253c\nd\n', 'a state that was never seen')
  vim.cmd('silent undo')
  it.same(it.written(path), '\254b\n\253c\nd\n', 'another')
  vim.cmd('silent undo')
  it.same(it.written(path), '\255a\n\254b\n\253c\nd\n')
end)

it.test('an undo and an edit between two looks', false, function()
  local path = it.open('utf-8', '\255a\nb\n')
  it.keys('x')
  vim.cmd('silent undo')
  vim.cmd('normal! jrc')
  it.same(it.written(path), '\255a\nc\n')
  it.undo()
  it.same(it.written(path), '\255a\nb\n')
  vim.cmd('silent undo 1')
  it.same(it.written(path), 'a\nb\n')
end)

it.test('a state that was never seen, of another branch', false, function()
  local path = it.open('utf-8', '\255a\nbc\n')
  it.keys('dd')
  it.undo()
  vim.cmd('normal! jx')
  vim.cmd('silent undo 1')
  it.same(it.written(path), 'bc\n')
  vim.cmd('silent undo 2')
  it.same(it.written(path), '\255a\nc\n')
end)

it.test('a step of which the program had made a part when it ended', false, function()
  local path = it.open('utf-8', 'a1\255\na2\255\na3\255\na4\255\n')
  local buffer, calls = it.buffer(), 0
  local change = buffer.document.change_all
  buffer.sending.most = 2
  function buffer.document.change_all(document, changes)
    calls = calls + 1
    if calls == 2 then
      document.connection.process:kill('sigkill')
    end
    return change(document, changes)
  end
  vim.cmd('silent %s/a/bb/')
  it.same(pcall(it.sync), false, 'whether all was made')
  it.keys('Gonew<Esc>')
  it.undo()
  it.agree('undone')
  it.redo()
  it.agree('done again')
  it.same(it.written(path), 'bb1\255\nbb2\255\nbb3\255\nbb4\255\nnew\n')
  vim.cmd('silent undo 0')
  it.same(it.written(path), 'a1\255\na2\255\na3\255\na4\255\n')
end)

it.test('an edit of which undo knows nothing', false, function()
  local path = it.open('utf-8', '\255a\nb\n')
  it.keys('x')
  it.undo()
  vim.bo.undolevels = -1
  it.keys('jrc')
  it.same(it.written(path), '\255a\nc\n')
end)

it.test('steps that Neovim forgot', false, function()
  local path = it.open('utf-8', ('\255a\n'):rep(6))
  vim.bo.undolevels = 3
  for _ = 1, 6 do
    it.keys('ggdd')
  end
  it.same(it.written(path), '')
  vim.cmd('silent! undo')
  vim.cmd('silent! undo')
  vim.cmd('silent! undo')
  it.same(it.written(path), ('\255a\n'):rep(vim.fn.line('$')))
  vim.cmd('silent! undo')
  vim.cmd('silent! undo')
  it.same(it.written(path), ('\255a\n'):rep(vim.fn.line('$')), 'as far back as it goes')
end)

it.test('letters that are typed are one step', false, function()
  local path = it.open('utf-8', '\255\n')
  for i, letter in ipairs({ 'h', 'é', 'l', 'l', 'o' }) do
    local column = #'\239\191\189' + (i > 2 and i or i - 1)
    vim.api.nvim_buf_set_text(0, 0, column, 0, column, { letter })
    it.sync()
  end
  it.same(it.written(path), '\255héllo\n')
  it.undo()
  it.same(it.written(path), '\255\n')
  it.redo()
  it.same(it.written(path), '\255héllo\n')
end)

it.test('reading again begins anew', false, function()
  local path = it.open('utf-8', '\255a\n')
  it.keys('x')
  vim.cmd('edit!')
  it.same(it.written(path), '\255a\n')
  it.same(it.failure('undo') .. table.concat(it.lines()), '\239\191\189a')
  it.keys('$rb')
  it.undo()
  it.same(it.written(path), '\255a\n')
end)

it.test('a buffer that can\'t be modified is read again', false, function()
  local path = it.open('utf-8', '\255a\n')
  vim.bo.modifiable = false
  it.write(path, '\254b\n')
  vim.cmd('edit')
  it.same({ it.lines(), vim.bo.modifiable }, { { '\239\191\189b' }, false })
  vim.bo.modifiable = true
  it.keys('x')
  it.undo()
  it.same(it.written(path), '\254b\n')
end)

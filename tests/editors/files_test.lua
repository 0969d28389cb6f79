---Each of the files that editors/damage/files.py makes: an edit of two characters, and nothing else differs.
local it = require('harness')

local function edit()
  vim.fn.cursor(1, 1)
  vim.fn.search('ABCD', 'c')
  it.keys('lrx')
  vim.fn.search('ABCD', 'c')
  it.keys('llry')
end

for _, file in ipairs(it.files()) do
  it.test(file.name .. ': saved as it is', file.needs_indexes, function()
    it.same(it.written(it.open(file.label, file.before)), file.before)
  end)

  it.test(file.name .. ': two characters, undone and done again', file.needs_indexes, function()
    local path = it.open(file.label, file.before)
    edit()
    it.agree('edited')
    it.same(it.written(path), file.after, 'edited')
    it.undo(2)
    it.agree('undone')
    it.same(it.written(path), file.before, 'undone')
    it.redo(2)
    it.same(it.written(path), file.after, 'done again')
  end)

  it.test(file.name .. ': both characters in one step', file.needs_indexes, function()
    local path = it.open(file.label, file.before)
    local text = it.lines()
    for i, line in ipairs(text) do
      text[i] = line:gsub('(%w* ?)ABCD', function(lead)
        return lead .. (lead == 'second ' and 'AByD' or 'AxCD')
      end)
    end
    vim.api.nvim_buf_set_lines(0, 0, -1, true, text)
    it.same(it.written(path), file.after)
  end)

  it.test(file.name .. ': opened by parts of 7 bytes', file.needs_indexes, function()
    it.settings({ part = 7 })
    local path = it.open(file.label, file.before)
    it.agree('in parts')
    edit()
    it.same(it.written(path), file.after)
  end)

  it.test(file.name .. ': each line deleted, and put back by undo', file.needs_indexes, function()
    local path = it.open(file.label, file.before)
    for row = 1, vim.fn.line('$') do
      vim.fn.cursor(row, 1)
      it.keys('dd')
      it.agree('deleted')
      it.undo()
      it.same(it.buffer().document.bytes, file.before, 'line ' .. row)
    end
    it.same(it.written(path), file.before)
  end)
end

it.test('lines are broken and joined around bytes that stay', true, function()
  -- The second ≒ in NEC's row, and a damaged byte.
  local path = it.open('shift_jis', 'a\129\224b\135\144\255c\nd\135\144\n')
  vim.fn.cursor(1, 5)
  it.keys('i<CR><Esc>')
  it.same(it.written(path), 'a\129\224\nb\135\144\255c\nd\135\144\n', 'broken')
  vim.fn.cursor(2, 1)
  it.keys('J')
  it.same(it.written(path), 'a\129\224\nb\135\144\255c d\135\144\n', 'joined')
  it.keys('>>')
  it.same(it.written(path), 'a\129\224\n\tb\135\144\255c d\135\144\n', 'shifted')
end)

it.test('the one of two equal characters at the cursor goes', true, function()
  for column, rest in pairs({ [1] = '\135\144\n', [4] = '\129\224\n' }) do
    local path = it.open('shift_jis', '\129\224\135\144\n')
    vim.fn.cursor(1, column)
    it.keys('x')
    it.same(it.written(path), rest, 'column ' .. column)
  end
end)

it.test('the one of two equal lines at the cursor goes', true, function()
  for row, rest in pairs({ 'a\n\135\144\nb\n', 'a\n\129\224\nb\n' }) do
    local path = it.open('shift_jis', 'a\n\129\224\n\135\144\nb\n')
    vim.fn.cursor(row + 1, 1)
    it.keys('dd')
    it.same(it.written(path), rest, 'row ' .. row)
  end
end)

it.test('a substitution in every line leaves the bytes between', true, function()
  local line = 'x\135\144x\255\n'
  local path = it.open('shift_jis', line:rep(300))
  vim.cmd('%s/x/yy/g')
  it.same(it.written(path), ('yy\135\144yy\255\n'):rep(300))
  it.undo()
  it.same(it.written(path), line:rep(300), 'undone')
end)

-- The third line becomes what the first one was, or the other way round, and the damaged byte is between.
it.test('edits within lines leave the bytes of lines that look as others did', false, function()
  local path = it.open('utf-8', '{\n  \255\n  {\n')
  vim.bo.shiftwidth, vim.bo.expandtab = 2, true
  it.keys('gg>G')
  it.same(it.written(path), '  {\n    \255\n    {\n', 'shifted')
  it.keys('gg<G')
  it.same(it.written(path), '{\n  \255\n  {\n', 'and back')
  path = it.open('utf-8', 'z\n\255\n\n')
  it.keys(':%normal! Az<CR>')
  it.same(it.written(path), 'zz\n\255z\nz\n')
  path = it.open('utf-8', 'z\n\255\n\n')
  vim.cmd('silent %s/$/z/')
  it.same(it.written(path), 'zz\n\255z\nz\n')
  path = it.open('utf-8', 'a\n\255\nza\n')
  it.keys('gg<C-V>GIz<Esc>')
  it.same(it.written(path), 'za\nz\255\nzza\n')
end)

it.test('damaged places are diagnostics', true, function()
  local function places()
    local list = {}
    for i, each in ipairs(vim.diagnostic.get(0)) do
      list[i] = { each.lnum, each.col, each.end_col, each.message:match('^(.-) %a+ no character') }
    end
    return list
  end
  it.open('shift_jis', 'a\r\n\129\224\255b\129\r\n')
  it.same(places(), { { 1, 3, 6, 'byte 5' }, { 1, 7, 10, 'byte 7' } })
  vim.fn.cursor(2, 4)
  it.keys('x')
  it.buffer():show()
  it.same(places(), { { 1, 4, 7, 'byte 6' } }, 'one is mended')
  it.same(vim.b.legacy_damaged, 1)
  -- A CR ends a line of the program and none of the buffer.
  it.open('utf-8', '\255\ra\255\r\n\r\255\n\255\r\255')
  it.same(places(), {
    { 0, 0, 3, 'byte 0' }, { 0, 5, 8, 'byte 3' }, { 1, 1, 4, 'byte 7' }, { 2, 0, 3, 'byte 9' }, { 2, 4, 7, 'byte 11' },
  })
  it.open('utf-8', 'a\r\n\255\r\n')
  it.keys('i<C-V><CR><Esc>')
  it.buffer():show()
  it.same(places(), { { 1, 0, 3, 'byte 4' } }, 'behind a CR that was typed')
  -- Errors at 0 to 5, 5 to 5 and 5 to 6.
  it.open('iso-2022-jp', '\27$B$\27A')
  it.same(it.lines(), { ('\239\191\189'):rep(3) })
  local ranges = vim.tbl_map(function(each)
    return { each[2], each[3], each[4] }
  end, places())
  it.same(ranges, { { 0, 3, 'bytes 0 to 4' }, { 3, 6, 'between bytes 4 and 5' }, { 6, 9, 'byte 5' } })
end)

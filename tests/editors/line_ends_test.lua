---Line ends stay as they are.
local it = require('harness')

it.test('CR LF', false, function()
  local path = it.open('x-user-defined', 'a\r\nb\r\nc\r\n')
  it.same(vim.bo.fileformat, 'dos')
  it.keys('jdd')
  it.same(it.written(path), 'a\r\nc\r\n')
  it.undo()
  it.keys('Gonew<Esc>')
  it.same(it.written(path), 'a\r\nb\r\nc\r\nnew\r\n')
  it.keys('ggJ')
  it.same(it.written(path), 'a b\r\nc\r\nnew\r\n')
  it.keys('ggdG')
  it.same(it.written(path), '', 'all deleted')
  it.undo()
  it.same(it.written(path), 'a b\r\nc\r\nnew\r\n')
  it.keys('gg0i<C-V><CR><Esc>')
  it.same(it.written(path), '\ra b\r\nc\r\nnew\r\n', 'a CR is typed')
  it.keys('Gox<Esc>')
  it.same(it.written(path), '\ra b\r\nc\r\nnew\r\nx\r\n')
end)

-- Each character deleted, and a letter put in at each place, between CR and LF too.
it.test('mixed line ends', false, function()
  local mixed = 'a\r\nb\nc\rd\r\n\r\re\n\rlast'
  local path = it.open('x-user-defined', mixed)
  it.same(it.lines(), { 'a\r', 'b', 'c\rd\r', '\r\re', '\rlast' })
  local at = 0
  for row, line in ipairs(it.lines()) do
    for column = 0, #line do
      for _, put in ipairs(column < #line and { 'x', '' } or { 'x' }) do
        local gone = put == '' and 1 or 0
        it.end_step()
        vim.api.nvim_buf_set_text(0, row - 1, column, row - 1, column + gone, { put })
        it.sync()
        local what = ('row %d, column %d, %q'):format(row, column, put)
        it.agree(what)
        it.same(it.buffer().document.bytes, mixed:sub(1, at + column) .. put .. mixed:sub(at + column + gone + 1), what)
        it.undo()
        it.same(it.buffer().document.bytes, mixed, what .. ', undone')
      end
    end
    at = at + #line + 1
  end
  vim.cmd('%s/[bde]/Z/')
  it.same(it.written(path), (mixed:gsub('[bde]', 'Z')))
  it.undo()
  vim.cmd([[%s/\r$//]])
  it.same(it.written(path), 'a\nb\nc\rd\n\r\re\n\rlast', 'CRs taken out')
end)

it.test('no line end behind the last line', false, function()
  local path = it.open('utf-8', 'a\nb')
  it.keys('Gx')
  it.same(it.written(path), 'a\n')
  it.undo()
  it.keys('Gdd')
  it.same(it.written(path), 'a', 'the last line is deleted')
  it.keys('ob<Esc>')
  it.same(it.written(path), 'a\nb', 'and another comes')
  vim.bo.endofline = true
  it.keys('ggrz')
  it.same(it.written(path), 'z\nb\n', 'endofline is set')
end)

it.test('endofline is set, and nothing edited', false, function()
  local path = it.open('utf-16le', 'a\0\r\0\n\0b\0')
  vim.bo.endofline = true
  it.same(it.written(path), 'a\0\r\0\n\0b\0\r\0\n\0')
  vim.bo.endofline = false
  it.same(it.written(path), 'a\0\r\0\n\0b\0')
  it.agree('not set')
  path = it.open('utf-16le', 'a\0b')
  vim.bo.endofline = true
  it.said('taken back', function()
    vim.cmd('write')
  end)
  it.same({ it.read(path), vim.bo.endofline, vim.bo.modified }, { 'a\0b', false, false }, 'behind half of a character')
end)

it.test('texts of no letter', false, function()
  local path = it.open('utf-8', '')
  it.same(it.written(path), '')
  it.keys('iab<Esc>')
  it.same(it.written(path), 'ab\n', 'a letter in an empty text')
  it.undo()
  it.same(it.written(path), '', 'undone')
  for _, text in ipairs({ '\n', '\n\n', '\r\n', '\r', ' ' }) do
    it.same(it.written(it.open('utf-8', text)), text, vim.inspect(text))
  end
  path = it.open('utf-8', '\n')
  it.keys('ix<Esc>')
  it.same(it.written(path), 'x\n')
end)

it.test('NUL', false, function()
  local path = it.open('utf-8', 'a\0b\n\0\n')
  it.keys('x')
  it.same(it.written(path), '\0b\n\0\n')
  it.keys('jia<Esc>')
  it.same(it.written(path), '\0b\na\0\n')
end)

it.test('fileformat is the file\'s', false, function()
  local path = it.open('utf-8', 'a\r\nb\r\n')
  it.said("'fileformat' is set", function()
    vim.bo.fileformat = 'unix'
    it.keys('rx')
  end)
  it.same(it.written(path), 'x\r\nb\r\n')
  it.said("'fileformat' is set", function()
    vim.bo.fileformat = 'unix'
    vim.cmd('write')
  end)
  it.same({ vim.bo.fileformat, it.read(path) }, { 'dos', 'x\r\nb\r\n' }, 'nothing edited')
end)

---Files: how they are written, and when not.
local uv = vim.uv or vim.loop
local it = require('harness')

local function left_over()
  return vim.fn.glob(it.work .. '/.legacy-*', true, true)
end

it.test('mode and links stay', false, function()
  local path = it.open('utf-8', 'a\n')
  assert(uv.fs_chmod(path, 416))
  local link = path .. '.link'
  assert(uv.fs_symlink(path, link))
  vim.cmd('LegacyEdit utf-8 ' .. link)
  it.keys('rb')
  vim.cmd('silent write')
  it.same(it.read(path), 'b\n')
  it.same(uv.fs_stat(path).mode % 4096, 416)
  it.same(uv.fs_lstat(link).type, 'link')
  it.same(left_over(), {})
end)

it.test('a link that leads to no file yet', false, function()
  local path, link = it.work .. '/none.txt', it.work .. '/none.link'
  assert(uv.fs_symlink('none.txt', link))
  vim.cmd('LegacyEdit utf-8 ' .. link)
  it.keys('ib<Esc>')
  it.same(it.written(path), 'b\n')
  it.keys('rc')
  it.same(it.written(path), 'c\n')
  it.same(uv.fs_lstat(link).type, 'link')
end)

it.test('a file that changed is not overwritten', false, function()
  local path = it.open('utf-8', 'a\n')
  it.keys('rb')
  it.write(path, 'c\n')
  it.same(it.failure('write'), 'legacy: not written: the file has changed since it was read (add ! to overwrite it)')
  it.same(it.read(path), 'c\n')
  it.same(vim.bo.modified, true)
  vim.cmd('silent write!')
  it.same(it.read(path), 'b\n')
  it.same(vim.bo.modified, false)
  assert(uv.fs_unlink(path))
  it.same(it.failure('write'):match('changed'), 'changed', 'a file that is gone')
end)

it.test('a new file', false, function()
  local path = it.work .. '/new file.txt'
  vim.cmd('LegacyEdit utf-16be ' .. path)
  it.keys('iaé<Esc>')
  it.same(it.written(path), '\0a\0\233\0\n')
  it.same(left_over(), {})
end)

it.test('a name with characters that Vim expands', false, function()
  local path = it.work .. '/a b [1] %#*.txt'
  it.write(path, 'a\255\n')
  vim.cmd('LegacyEdit utf-8 ' .. path)
  it.keys('rb')
  it.same(it.written(path), 'b\255\n')
  it.same(vim.fn.glob(it.work .. '/a b*', true, true), { path })
end)

it.test('another file', false, function()
  local path = it.open('utf-8', 'a\255\n')
  it.keys('rb')
  local other = path .. '.other'
  vim.cmd(('silent write legacy://utf-8/%s'):format(other))
  it.same({ it.read(path), it.read(other) }, { 'a\255\n', 'b\255\n' })
  it.same(vim.bo.modified, true)
  it.same(it.failure('write legacy://utf-8/' .. other):match('exists'), 'exists')
  it.same(it.failure('write legacy://utf-16le/' .. other .. '2'):match('own encoding'), 'own encoding')
end)

it.test('a buffer that gets another name', false, function()
  for _, rename in ipairs({ 'silent saveas', 'file' }) do
    local path = it.open('utf-8', 'a\255\n')
    local other = path .. '.other'
    it.keys('rb')
    vim.cmd(('%s legacy://utf-8/%s'):format(rename, other))
    it.same({ it.written(other), it.read(path), vim.bo.modified }, { 'b\255\n', 'a\255\n', false }, rename)
    it.keys('rc')
    it.same({ it.written(other), it.read(path) }, { 'c\255\n', 'a\255\n' }, rename .. ', behind it')
  end
end)

it.test('a buffer that gets a name which is taken, or another encoding', false, function()
  local path = it.open('utf-8', 'a\255\n')
  local other = path .. '.other'
  it.write(other, 'other\n')
  it.keys('rb')
  it.same(it.failure('saveas legacy://utf-8/' .. other):match('exists'), 'exists')
  it.same({ it.read(path), it.read(other), vim.bo.modified }, { 'a\255\n', 'other\n', true })
  vim.cmd('file legacy://utf-16le/' .. other)
  it.same(it.failure('write!'):match('own encoding'), 'own encoding')
  vim.cmd('file legacy://utf-8/' .. path)
  it.same({ it.written(path), it.read(other) }, { 'b\255\n', 'other\n' }, 'its own name again')
  vim.cmd('silent saveas! legacy://utf-8/' .. other)
  it.same({ it.read(other), it.lines() }, { 'b\255\n', { 'b\239\191\189' } })
end)

it.test('a folder that can\'t be written', false, function()
  local folder = it.work .. '/gone'
  vim.fn.mkdir(folder)
  it.write(folder .. '/a.txt', 'a\n')
  vim.cmd('LegacyEdit utf-8 ' .. folder .. '/a.txt')
  it.keys('rb')
  vim.fn.delete(folder, 'rf')
  it.same(it.failure('write!'):match('^legacy: not written: ENOENT'), 'legacy: not written: ENOENT')
  it.same(vim.bo.modified, true)
end)

it.test('bytes that aren\'t those kept are not written', false, function()
  local path = it.open('utf-8', 'a\n')
  it.buffer().document.bytes = 'x\n'
  it.same(it.failure('write'):match("aren't those"), "aren't those")
  it.same(it.read(path), 'a\n')
end)

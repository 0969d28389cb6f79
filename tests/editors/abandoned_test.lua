---Documents whose editors are gone don't take the places of others, and what was in them isn't lost.
local it = require('harness')
local others = require('others')

---Has another Neovim open files until the program has no room for one more, and be killed.
---@param settings table
---@return string[] paths
local function fill(settings)
  local other, paths = others.editor(settings), {}
  other.lua('vim.o.hidden = true')
  for i = 1, 63 do
    paths[i] = ('%s.%d'):format(settings.socket, i)
    it.write(paths[i], 'a\255\n')
    other.edit('utf-8', paths[i])
  end
  other.call('keys', 'rx')
  -- (so that the program doesn't end with it)
  local keeper = vim.loop.new_pipe(false)
  keeper:connect(settings.socket)
  vim.wait(200)
  other.kill()
  return paths, keeper
end

it.test('a file is opened though documents of a killed editor take all places', false, function()
  local settings = others.settings()
  local paths, keeper = fill(settings)
  -- What the killed one itself has kept is not what this is about.
  vim.fn.delete(it.work .. '/state/gate/unsaved', 'rf')
  it.settings(settings)
  local path = it.open('utf-8', 'b\n')
  it.keys('rc')
  it.same(it.written(path), 'c\n')
  it.said('): :LegacyRecover [compare|discard]', function()
    vim.cmd('LegacyEdit utf-8 ' .. paths[63])
  end)
  vim.cmd('LegacyRecover')
  it.same(it.buffer().document.bytes, 'x\255\n')
  vim.cmd('LegacyEdit! utf-8 ' .. paths[1])
  it.same(it.failure('LegacyRecover'), 'legacy: nothing of this file was left unsaved')
  keeper:close()
  others.kill(settings)
end)

it.test('the documents that are open are listed', false, function()
  local settings = others.settings()
  it.settings(settings)
  local path = it.open('utf-8', 'b\n')
  local other = others.editor(settings)
  other.edit('utf-8', path)
  other.edit('utf-8', path .. '.other')
  it.said(path .. '  2 editors', function()
    vim.cmd('LegacyDocuments')
  end)
  other.kill()
  it.said(vim.fn.sha256(path .. '.other') .. '  its editors are gone', function()
    vim.cmd('LegacyDocuments')
  end)
  it.said('1 documents were closed', function()
    vim.cmd('LegacyDocuments!')
  end)
  others.kill(settings)
end)

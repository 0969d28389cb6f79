-- :LegacyEdit ENCODING FILE, and buffers named legacy://ENCODING/FILE. The help page is legacy.txt.
if vim.g.loaded_legacy then
  return
end
vim.g.loaded_legacy = true

-- Each of these calls returns a command, so that an error is one of Vim's and not a traceback of Lua.
local edit = "execute v:lua.require'legacy'.edit(<q-args>, <q-bang>) | execute v:lua.require'legacy'.failure()"
vim.api.nvim_create_user_command('LegacyEdit', edit, {
  nargs = '+',
  bang = true,
  desc = 'Edit a file in a legacy encoding',
  complete = function(lead, line)
    return require('legacy').complete(lead, line)
  end,
})

vim.api.nvim_create_user_command('LegacyRecover', "execute v:lua.require'legacy'.recover(<q-args>)", {
  nargs = '?',
  desc = 'Take, compare or discard what was left unsaved',
  complete = function(lead)
    return require('legacy').complete_recovery(lead)
  end,
})

vim.api.nvim_create_user_command('LegacyDocuments', "execute v:lua.require'legacy'.documents(<q-bang>)", {
  bang = true,
  desc = 'List the documents that are open, or close those whose editors are gone',
})

local group = vim.api.nvim_create_augroup('legacy', { clear = true })

vim.api.nvim_create_autocmd('BufReadCmd', {
  group = group,
  pattern = 'legacy://*',
  nested = true,
  command = "execute v:lua.require'legacy'.read(str2nr(expand('<abuf>')), expand('<amatch>'), v:cmdbang)",
})

vim.api.nvim_create_autocmd('BufWriteCmd', {
  group = group,
  pattern = 'legacy://*',
  command = "execute v:lua.require'legacy'.write(str2nr(expand('<abuf>')), expand('<amatch>'), v:cmdbang)",
})

vim.api.nvim_create_autocmd('VimLeavePre', {
  group = group,
  callback = function()
    if package.loaded.legacy then
      require('legacy').leave()
    end
  end,
})

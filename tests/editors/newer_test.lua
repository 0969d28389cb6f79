---Newer Neovims: the plugin works where what they call deprecated is missing, and names nothing deprecated without a guard.
local it = require('harness')
local others = require('others')

---What newer Neovims have in place of something older, and the one guard that the plugin may use.
local RENAMED = {
  { old = 'vim.loop', guard = 'vim.uv or vim.loop' },
  { old = 'vim.diff', guard = 'vim.text and vim.text.diff or vim.diff' },
}

---What newer Neovims call deprecated, or have no more.
local DEPRECATED = {
  'nvim_buf_add_highlight', 'nvim_buf_get_option', 'nvim_buf_set_option', 'nvim_command_output', 'nvim_err_write',
  'nvim_exec%f[^%w_]', 'nvim_get_hl_by', 'nvim_get_option%f[^%w_]', 'nvim_out_write', 'nvim_set_option%f[^%w_]',
  'nvim_win_get_option', 'nvim_win_set_option', 'vim%.diagnostic%.disable', 'vim%.diagnostic%.goto', 'vim%.diagnostic%.is_disabled',
  'vim%.highlight', 'vim%.lsp%.', 'vim%.region', 'vim%.str_utfindex', 'vim%.tbl_add_reverse_lookup', 'vim%.tbl_flatten',
  'vim%.tbl_islist', 'vim%.validate', 'sign_define',
}

local function is_newer(name)
  return loadstring('return ' .. name:gsub('^vim%.text%.diff$', 'vim.text and vim.text.diff'))() ~= nil
end

it.test('nothing deprecated is used without a guard', false, function()
  local found = {}
  for _, path in ipairs(vim.api.nvim_get_runtime_file('lua/legacy/*.lua', true)) do
    local code = it.read(path):gsub('%-%-[^\n]*', '')
    for _, each in ipairs(RENAMED) do
      code = code:gsub(vim.pesc(each.guard), '')
      found[#found + 1] = code:find(each.old, 1, true) and path .. ': ' .. each.old or nil
    end
    for _, name in ipairs(DEPRECATED) do
      found[#found + 1] = code:find(name) and path .. ': ' .. name or nil
    end
  end
  it.same(found, {})
end)

it.test('the plugin works where what is deprecated is missing', false, function()
  local path = it.work .. '/newer.txt'
  it.write(path, 'a\255\nb\n')
  local other = others.editor({})
  local done, why = pcall(function()
    other.lua([[
      local newer = { uv = vim.uv or vim.loop, text = vim.text or { diff = vim.diff } }
      local environment = setmetatable({ vim = setmetatable(newer, { __index = function(_, name)
        return name ~= 'loop' and name ~= 'diff' and vim[name] or nil
      end }) }, { __index = _G })
      -- (this Neovim's own files use what is deprecated in newer ones)
      for _, path in ipairs(vim.api.nvim_get_runtime_file('lua/legacy/*.lua', true)) do
        local name = path:match('([%w_]+)%.lua$')
        name = name == 'init' and 'legacy' or 'legacy.' .. name
        package.loaded[name] = nil
        package.preload[name] = function()
          return setfenv(assert(loadfile(path)), environment)(name)
        end
      end
      package.loaded.harness = nil
    ]])
    other.call('settings', {})
    other.edit('utf-8', path)
    other.call('keys', 'Gocc<Esc>')
    other.call('keys', 'gg0rx')
    other.call('undo')
    other.call('redo')
    other.call('agree', 'without what is deprecated')
    it.same(other.call('written', path), 'x\255\nb\ncc\n')
  end)
  other.quit()
  assert(done, why)
end)

for _, name in ipairs({ 'vim.uv', 'vim.text.diff' }) do
  if not is_newer(name) then
    io.stdout:write(('%s was stood in for, which needs a newer Neovim\n'):format(name))
  end
end

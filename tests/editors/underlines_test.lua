---What is drawn of damaged places, as the user has set Neovim's own handlers of diagnostics.
local it = require('harness')

local DRAWN = vim.api.nvim_get_namespaces()['legacy.underlines']
local LEGACY = vim.api.nvim_get_namespaces().legacy

---What is drawn: of each mark its row, its column, and its highlight or its text.
local function drawn()
  return vim.tbl_map(function(mark)
    local text = mark[4].virt_text and vim.tbl_map(function(part)
      return part[1]
    end, mark[4].virt_text)
    return { mark[2], mark[3], mark[4].hl_group or table.concat(text) }
  end, vim.api.nvim_buf_get_extmarks(0, DRAWN, 0, -1, { details = true }))
end

---Runs with settings of diagnostics, which are then as before.
local function with(settings, call)
  local before = vim.diagnostic.config()
  vim.diagnostic.config(settings)
  local done, why = pcall(call)
  vim.diagnostic.config(before)
  assert(done, why)
end

it.test('damaged places are underlined and named', false, function()
  it.open('utf-8', 'a\255b\nok\n\254\n')
  local line = { 'DiagnosticUnderlineWarn', '    ■ byte 1 is no character of UTF-8', '    ■ byte 7 is no character of UTF-8' }
  local marks = drawn()
  table.sort(marks, function(one, other)
    return one[1] < other[1] or one[1] == other[1] and one[3] < other[3]
  end)
  it.same(marks, { { 0, 0, line[2] }, { 0, 1, line[1] }, { 2, 0, line[3] }, { 2, 0, line[1] } })
  it.keys('ggO<Esc>')
  it.same(drawn()[1][1], 1, 'they move with their lines')
end)

it.test('damaged places are drawn as the user has set it', false, function()
  it.open('utf-8', 'a\255b\n')
  local function shown(settings)
    local list
    with(settings, function()
      it.buffer():show()
      list = drawn()
    end)
    return list
  end
  it.same(shown({ virtual_text = false }), { { 0, 1, 'DiagnosticUnderlineWarn' } })
  it.same(shown({ underline = false, virtual_text = { prefix = '!', spacing = 1, format = function()
    return 'damaged'
  end } }), { { 0, 0, ' ! damaged' } })
  it.same(shown({ underline = { severity = 'ERROR' }, virtual_text = { severity = { min = 'ERROR' } } }), {})
  it.same(#shown({ underline = { severity = { min = 'WARN' } }, virtual_text = { severity = 'WARN' } }), 2)
  it.same(shown({ underline = false, virtual_text = false }), {})
end)

it.test('damaged places are hidden and shown as other diagnostics are', false, function()
  it.open('utf-8', 'a\255b\n')
  vim.diagnostic.hide(LEGACY, 0)
  it.same(drawn(), {})
  vim.diagnostic.show(LEGACY, 0)
  it.same(#drawn(), 2)
  vim.diagnostic.hide()
  it.same(drawn(), {})
end)

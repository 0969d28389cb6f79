---What stays where it was while another editor edits: cursors, windows, marks, extended marks, folds, selections.
local it = require('harness')
local others = require('others')

local namespace = vim.api.nvim_create_namespace('places_test')

local TEXT = { 'one', 'two', 'three', 'four', 'five', 'six' }

local function text(lines)
  return table.concat(lines or TEXT, '\n') .. '\n'
end

---Edits of the other, what the text is then, and where a place that was at row 2, column 2 is.
local ROWS = {
  { 'a line in front', 'ggOx<Esc>', { 'x', 'one', 'two', 'three', 'four', 'five', 'six' }, { 3, 2 } },
  { 'a line behind', 'Gox<Esc>', { 'one', 'two', 'three', 'four', 'five', 'six', 'x' }, { 2, 2 } },
  { 'a line right in front', '2Gox<Esc>', { 'one', 'two', 'x', 'three', 'four', 'five', 'six' }, { 3, 2 } },
  { 'a line right behind', '3Gox<Esc>', { 'one', 'two', 'three', 'x', 'four', 'five', 'six' }, { 2, 2 } },
  { 'two lines deleted in front', 'gg2dd', { 'three', 'four', 'five', 'six' }, { 0, 2 } },
  { 'lines joined in front', 'ggJ', { 'one two', 'three', 'four', 'five', 'six' }, { 1, 2 } },
  { 'a letter in front', '3GiX<Esc>', { 'one', 'two', 'Xthree', 'four', 'five', 'six' }, { 2, 3 } },
  { 'a letter behind', '3GAX<Esc>', { 'one', 'two', 'threeX', 'four', 'five', 'six' }, { 2, 2 } },
  { 'the line broken in front', '3Gli<CR><Esc>', { 'one', 'two', 't', 'hree', 'four', 'five', 'six' }, { 3, 1 } },
  { 'lines apart', 'ggOx<Esc>Gox<Esc>', { 'x', 'one', 'two', 'three', 'four', 'five', 'six', 'x' }, { 3, 2 } },
}

for _, row in ipairs(ROWS) do
  local name, keys, lines, place = unpack(row)
  others.together('places: ' .. name, 'utf-8', text(), function(other)
    vim.api.nvim_win_set_cursor(0, { 3, 2 })
    vim.cmd('split')
    vim.api.nvim_win_set_cursor(0, { 3, 2 })
    vim.api.nvim_buf_set_mark(0, 'a', 3, 2, {})
    vim.api.nvim_buf_set_mark(0, 'A', 3, 2, {})
    local mark = vim.api.nvim_buf_set_extmark(0, namespace, 2, 2, {})
    other.call('keys', keys)
    others.shows(lines)
    local wanted = { place[1] + 1, place[2] }
    it.same(vim.api.nvim_win_get_cursor(0), wanted, 'the cursor')
    it.same(vim.api.nvim_win_get_cursor(vim.fn.win_getid(2)), wanted, 'the other window')
    it.same(vim.api.nvim_buf_get_extmark_by_id(0, namespace, mark, {}), place, 'the extended mark')
    it.same(vim.api.nvim_buf_get_mark(0, 'a'), wanted, 'the mark')
    it.same(vim.api.nvim_buf_get_mark(0, 'A'), wanted, 'the mark of a file')
    it.agree('this one')
    vim.cmd('only')
  end)
end

others.together('places: folds and what a window shows', 'utf-8', ('x\n'):rep(100), function(other)
  vim.wo.foldmethod = 'manual'
  vim.cmd('41,50fold')
  vim.fn.winrestview({ topline = 30, lnum = 60, col = 0 })
  vim.cmd('redraw')
  other.call('keys', 'ggOa<CR>b<Esc>40Goc<Esc>Godd<Esc>')
  it.same(vim.wait(it.LIMIT, function()
    return vim.fn.line('$') == 104
  end, 20), true)
  it.same({ vim.fn.foldclosed(44), vim.fn.foldclosedend(44) }, { 44, 53 })
  local view = vim.fn.winsaveview()
  it.same({ view.topline, view.lnum }, { 32, 63 })
end)

others.together('places: a selection', 'utf-8', text(), function(other)
  vim.api.nvim_win_set_cursor(0, { 3, 1 })
  vim.api.nvim_feedkeys('vj', 'nx!', false)
  other.call('keys', 'ggOx<Esc>')
  it.same(vim.wait(it.LIMIT, function()
    return #it.lines() == 7
  end, 20), true)
  it.same(vim.api.nvim_get_mode().mode, 'v')
  it.same({ vim.fn.getpos('v'), vim.fn.getpos('.') }, { { 0, 4, 2, 0 }, { 0, 5, 2, 0 } })
  vim.cmd('normal! d')
  it.sync()
  it.same(it.lines(), { 'x', 'one', 'two', 'tur', 'five', 'six' })
end)

others.together('places: damaged places', 'utf-8', 'a\255\nb\n\254c\n', function(other)
  local function damaged()
    return vim.tbl_map(function(each)
      return { each.lnum, each.col }
    end, vim.diagnostic.get(0))
  end
  it.same(damaged(), { { 0, 1 }, { 2, 0 } })
  other.call('keys', 'ggOx<Esc>j0iyy<Esc>G0rz')
  others.shows({ 'x', 'yya\239\191\189', 'b', 'zc' })
  it.same(vim.wait(it.LIMIT, function()
    return vim.deep_equal(damaged(), { { 1, 3 } })
  end, 20), true, vim.inspect(damaged()))
  it.same(vim.b.legacy_damaged, 1)
end)

others.together('places: the cursor where text is inserted', 'utf-8', text(), function(other)
  other.type('3Glli')
  it.keys('ggOx<Esc>')
  it.keys('4G0iyy<Esc>')
  it.keys('4G04lix<Esc>')
  other.shows({ 'x', 'one', 'two', 'yythxree', 'four', 'five', 'six' })
  other.type('z')
  others.shows({ 'x', 'one', 'two', 'yythzxree', 'four', 'five', 'six' })
  other.type('<Esc>')
end)

others.together('places: completions are not disturbed', 'utf-8', 'word\nworm\n\n', function(other)
  other.type('Gowo<C-N>')
  -- (keys of another Neovim are read when it comes to them)
  it.same(vim.wait(it.LIMIT, function()
    return other.lua('return vim.fn.pumvisible()') == 1
  end, 20), true, 'the menu is shown')
  it.keys('ggOx<Esc>')
  vim.wait(500)
  it.same(other.call('lines')[1], 'word')
  other.type('<C-Y> <Esc>')
  it.same(vim.wait(it.LIMIT, function()
    return other.call('lines')[1] == 'x'
  end, 20), true, vim.inspect(other.call('lines')))
  others.shows(other.call('lines'))
end)

---Changes a buffer's text where another editor edited it, and leaves what is beside it where it was: cursors, what windows
---show, Visual mode's selection, marks. Extended marks, diagnostics and folds are Neovim's to keep, which it does if no
---more is changed than differs.
local M = {}

local api = vim.api

---The marks of a buffer that are set by hand.
local MARKS = {}
for _, first in ipairs({ 'a', 'A' }) do
  for letter = first:byte(), first:byte() + 25 do
    MARKS[#MARKS + 1] = string.char(letter)
  end
end

---A place before edits, and whether it stays before what is put in right there.
---@class legacy.Place
---@field row integer
---@field column integer
---@field stays boolean|nil

---Where a place is after an edit. One whose text is replaced is as far into what comes in its stead.
---@param place legacy.Place
---@param edit legacy.Edit
---@param put string[] its lines
---@return legacy.Place
local function move_place(place, edit, put)
  local row, column, stays = place.row, place.column, place.stays
  local is_empty = edit.row == edit.end_row and edit.column == edit.end_column
  local is_in_front = row < edit.row or row == edit.row and column < edit.column
  local is_behind = row > edit.end_row or row == edit.end_row and column >= edit.end_column
  if is_in_front or is_empty and stays and row == edit.row and column == edit.column then
    return place
  elseif not is_behind then
    local is_line = edit.row == edit.end_row and #put == 1
    return { row = edit.row, column = is_line and math.min(column, edit.column + #put[1]) or edit.column, stays = stays }
  end
  if row == edit.end_row then
    column = column - edit.end_column + #put[#put] + (#put == 1 and edit.column or 0)
  end
  return { row = row + #put - 1 - (edit.end_row - edit.row), column = column, stays = stays }
end

---@param window integer
---@param call fun(): any
local function within(window, call)
  if window == api.nvim_get_current_win() then
    return call()
  end
  return api.nvim_win_call(window, call)
end

---The places that a buffer's readers know: each with how it is set again.
---@alias legacy.Keeper { place: legacy.Place, set: fun(row: integer, column: integer, is_same: boolean) }

---@param list legacy.Keeper[]
---@param window integer
---@param is_inserting boolean
local function add_window(list, window, is_inserting)
  local row, column = unpack(api.nvim_win_get_cursor(window))
  local view = within(window, vim.fn.winsaveview)
  list[#list + 1] = {
    place = { row = row - 1, column = column, stays = is_inserting },
    set = function(to_row, to_column, is_same)
      local at = api.nvim_win_get_cursor(window)
      if at[1] ~= to_row + 1 or at[2] ~= to_column then
        api.nvim_win_set_cursor(window, { to_row + 1, to_column })
      end
      if is_same then
        within(window, function()
          vim.fn.winrestview({ curswant = view.curswant })
        end)
      end
    end,
  }
  -- (text that comes before all other text is to be seen)
  list[#list + 1] = view.topline > 1 and {
    place = { row = view.topline - 1, column = 0 },
    set = function(to_row)
      within(window, function()
        if vim.fn.winsaveview().topline ~= to_row + 1 then
          vim.fn.winrestview({ topline = to_row + 1 })
        end
      end)
    end,
  } or nil
end

---The other end of the selection, where Visual mode has one in a buffer.
---@param list legacy.Keeper[]
---@param number integer
local function add_selection(list, number)
  local mode = api.nvim_get_mode().mode:sub(1, 1)
  if number ~= api.nvim_get_current_buf() or not mode:find('[vV\22]') then
    return
  end
  local _, row, column = unpack(vim.fn.getpos('v'))
  list[#list + 1] = {
    place = { row = row - 1, column = column - 1 },
    set = function(to_row, to_column, is_same)
      if not is_same then
        local cursor = api.nvim_win_get_cursor(0)
        vim.cmd('normal! o')
        api.nvim_win_set_cursor(0, { to_row + 1, to_column })
        vim.cmd('normal! o')
        api.nvim_win_set_cursor(0, cursor)
      end
    end,
  }
end

---@param list legacy.Keeper[]
---@param number integer
local function add_marks(list, number)
  for _, name in ipairs(MARKS) do
    local row, column = unpack(api.nvim_buf_get_mark(number, name))
    list[#list + 1] = row > 0 and {
      place = { row = row - 1, column = column },
      set = function(to_row, to_column)
        local at = api.nvim_buf_get_mark(number, name)
        if at[1] ~= to_row + 1 or at[2] ~= to_column then
          api.nvim_buf_set_mark(number, name, to_row + 1, to_column, {})
        end
      end,
    } or nil
  end
end

---Puts an edit into a buffer: whole lines as such, so that what is kept by lines, as folds, moves with its lines.
---@param number integer
---@param edit legacy.Edit
---@param lines string[] its text's
local function put(number, edit, lines)
  local row, end_row = edit.row, edit.end_row
  local function length(of)
    return #api.nvim_buf_get_lines(number, of, of + 1, true)[1]
  end
  local is_one = edit.text == '' or row == end_row and edit.column == edit.end_column
  if is_one and edit.column == 0 and edit.end_column == 0 and lines[#lines] == '' then
    api.nvim_buf_set_lines(number, row, end_row, true, vim.list_slice(lines, 1, #lines - 1))
  elseif is_one and edit.column == length(row) and edit.end_column == length(end_row) and lines[1] == '' then
    api.nvim_buf_set_lines(number, row + 1, end_row + 1, true, vim.list_slice(lines, 2))
  else
    api.nvim_buf_set_text(number, row, edit.column, end_row, edit.end_column, lines)
  end
end

---Makes edits of a buffer's own lines.
---@param number integer
---@param edits legacy.Edit[] that of the last place first
---@param is_inserting boolean whether text is being inserted at the cursor
function M.edit(number, edits, is_inserting)
  local keepers, options = {}, vim.bo[number]
  for _, window in ipairs(vim.fn.win_findbuf(number)) do
    add_window(keepers, window, is_inserting and window == api.nvim_get_current_win())
  end
  add_selection(keepers, number)
  add_marks(keepers, number)
  local places, modifiable = {}, options.modifiable
  for i, keeper in ipairs(keepers) do
    places[i] = keeper.place
  end
  options.modifiable = true
  for _, edit in ipairs(edits) do
    local lines = vim.split(edit.text, '\n', { plain = true })
    put(number, edit, lines)
    for i, place in ipairs(places) do
      places[i] = move_place(place, edit, lines)
    end
  end
  options.modifiable = modifiable
  for i, place in ipairs(places) do
    local before = keepers[i].place
    keepers[i].set(place.row, place.column, place.row == before.row and place.column == before.column)
  end
end

return M

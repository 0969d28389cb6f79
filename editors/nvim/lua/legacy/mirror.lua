---The text that the program has, as lines: a buffer's lines, and after a last line end one more that is empty.
local M = {}

---A range of the text, in rows and bytes of UTF-8, both from 0, and what replaces it, with LF for each line end.
---@class legacy.Edit
---@field row integer
---@field column integer
---@field end_row integer
---@field end_column integer
---@field text string

---Some lines in place of others.
---@class legacy.Rows
---@field row integer
---@field lines_gone string[]
---@field lines_put string[]

---@class legacy.Mirror
---@field lines string[]
---@field line_end '\n'|'\r\n' what lies between two lines
---@field private returns integer how many CRs are in the lines
local Mirror = {}
Mirror.__index = Mirror

local function count(text, what)
  return select(2, text:gsub(what, ''))
end

---@param line string
---@return integer
local function returns_of(line)
  return line:find('\r', 1, true) and count(line, '\r') or 0
end

---CR LF is the line end where every CR has an LF and every LF a CR. Elsewhere LF is, and each CR is in its line.
---@param text string
---@return legacy.Mirror
function M.new(text)
  local returns, feeds, both = count(text, '\r'), count(text, '\n'), count(text, '\r\n')
  local line_end = both > 0 and both == returns and both == feeds and '\r\n' or '\n'
  return setmetatable({
    lines = vim.split(text, line_end, { plain = true }),
    line_end = line_end,
    returns = line_end == '\n' and returns or 0,
  }, Mirror)
end

---Whether a place's row is the program's line too, whatever comes before it.
---@return boolean
function Mirror:plain()
  return self.returns == 0
end

---A buffer's lines for those of a mirror, and whether the last of them has a line end.
---@param lines string[]
---@return string[], boolean
function M.display(lines)
  if #lines > 1 and lines[#lines] == '' then
    return vim.list_slice(lines, 1, #lines - 1), true
  end
  return lines, false
end

---@return string[], boolean
function Mirror:display()
  return M.display(self.lines)
end

---How many bytes of UTF-8 some lines have, with the line ends between them.
---@param lines string[]
---@return integer
function Mirror:size(lines)
  local size = (#lines - 1) * #self.line_end
  for _, line in ipairs(lines) do
    size = size + #line
  end
  return size
end

---How many code points some lines have, with the line ends between them.
---@param lines string[]
---@return integer
function Mirror:code_points(lines)
  local number = (#lines - 1) * #self.line_end
  for _, line in ipairs(lines) do
    number = number + (line:find('[\128-\255]') and count(line, '[^\128-\191]') or #line)
  end
  return number
end

---By how much some lines in place of others make the text grow: in bytes of UTF-8, and in code points.
---@param rows legacy.Rows
---@return integer[]
function Mirror:growth(rows)
  local gone, put = rows.lines_gone, rows.lines_put
  return { self:size(put) - self:size(gone), self:code_points(put) - self:code_points(gone) }
end

---Whether a place lies between CR and LF, which the program treats as one line end.
---@private
function Mirror:inside_line_end(row, column)
  local line = self.lines[row + 1]
  return self.line_end == '\n' and row + 1 < #self.lines and column == #line and line:byte(-1) == 13
end

---How many of the program's lines a row is: for it a CR ends a line too, and one before LF the same line.
function Mirror:line_count(row)
  local line = self.lines[row + 1]
  if self.returns == 0 or not line:find('\r', 1, true) then
    return 1
  end
  return 1 + count(line, '\r') - (self:inside_line_end(row, #line) and 1 or 0)
end

---The column after so many CRs of a row.
function Mirror:start(row, returns)
  local start = 0
  for _ = 1, returns do
    start = self.lines[row + 1]:find('\r', start + 1, true)
  end
  return start
end

---The program's line and character of a place.
---@private
function Mirror:position(row, column)
  if self.returns == 0 then
    return { line = row, character = column }
  end
  local line = 0
  for before = 0, row - 1 do
    line = line + self:line_count(before)
  end
  local head, start = self.lines[row + 1]:sub(1, column), 0
  for behind in head:gmatch('\r()') do
    line, start = line + 1, behind - 1
  end
  return { line = line, character = column - start }
end

---The command for an edit. No position lies between CR and LF, so where the edit begins or ends there both are taken
---out, and the one that stays is put in again.
---@param edit legacy.Edit
---@return { range: table, text: string }
function Mirror:command(edit)
  local text = edit.text:gsub('\n', self.line_end)
  local row, column, end_row, end_column = edit.row, edit.column, edit.end_row, edit.end_column
  if self:inside_line_end(row, column) then
    column, text = column - 1, '\r' .. text
  end
  if self:inside_line_end(end_row, end_column) then
    end_row, end_column, text = end_row + 1, 0, text .. '\n'
  end
  local range = { start = self:position(row, column), ['end'] = self:position(end_row, end_column) }
  return { range = range, text = text }
end

---The lines that an edit replaces, and those that it makes of them.
---@param edit legacy.Edit
---@return legacy.Rows
function Mirror:rows(edit)
  local gone = vim.list_slice(self.lines, edit.row + 1, edit.end_row + 1)
  local put = vim.split(edit.text, '\n', { plain = true })
  put[1] = gone[1]:sub(1, edit.column) .. put[1]
  put[#put] = put[#put] .. gone[#gone]:sub(edit.end_column + 1)
  return { row = edit.row, lines_gone = gone, lines_put = put }
end

---The lines that edits replace together, and those that they make of them.
---@param edits legacy.Edit[] that of the last place first
---@return legacy.Rows
function Mirror:rows_of(edits)
  local row, end_row = edits[#edits].row, edits[1].end_row
  local gone, own = vim.list_slice(self.lines, row + 1, end_row + 1), {}
  for i, it in ipairs(edits) do
    local first, last = it.row - row, it.end_row - row
    own[i] = { row = first, column = it.column, end_row = last, end_column = it.end_column, text = it.text }
  end
  return { row = row, lines_gone = gone, lines_put = M.apply_edits(gone, own) }
end

---Makes room for lines, or takes it away, in place.
---@param lines string[]
---@param behind integer the number of lines in front of those that move
---@param by integer
local function move(lines, behind, by)
  local last = #lines
  if by > 0 then
    for i = last, behind + 1, -1 do
      lines[i + by] = lines[i]
    end
  elseif by < 0 then
    for i = behind + 1, last do
      lines[i + by] = lines[i]
    end
    for i = last, last + by + 1, -1 do
      lines[i] = nil
    end
  end
end

---A mirror of the same text.
---@param mirror legacy.Mirror
---@return legacy.Mirror
function M.copy(mirror)
  return setmetatable({
    lines = vim.list_slice(mirror.lines),
    line_end = mirror.line_end,
    returns = mirror.returns,
  }, Mirror)
end

---What edits make of some lines.
---@param lines string[]
---@param edits legacy.Edit[] that of the last place first
---@return string[]
function M.apply_edits(lines, edits)
  local mirror = setmetatable({ lines = vim.list_slice(lines), line_end = '\n', returns = 0 }, Mirror)
  for _, edit in ipairs(edits) do
    local line = edit.row == edit.end_row and not edit.text:find('\n', 1, true) and mirror.lines[edit.row + 1]
    if line then
      mirror.lines[edit.row + 1] = line:sub(1, edit.column) .. edit.text .. line:sub(edit.end_column + 1)
    else
      mirror:replace(mirror:rows(edit))
    end
  end
  return mirror.lines
end

---@param rows legacy.Rows
function Mirror:replace(rows)
  for _, line in ipairs(rows.lines_gone) do
    self.returns = self.returns - returns_of(line)
  end
  for _, line in ipairs(rows.lines_put) do
    self.returns = self.returns + returns_of(line)
  end
  move(self.lines, rows.row + #rows.lines_gone, #rows.lines_put - #rows.lines_gone)
  for i, line in ipairs(rows.lines_put) do
    self.lines[rows.row + i] = line
  end
end

return M

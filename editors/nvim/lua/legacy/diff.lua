---The smallest edits that lead from some lines to others: what stays is named by no edit, so its bytes stay.
local M = {}

local line_diff = vim.text and vim.text.diff or vim.diff

---Longer texts aren't compared code point by code point.
local LONGEST = 65536

---Texts of so many bytes are compared sooner.
local SHORT = 32

---Rows of the old lines that become rows of the new ones, both counted from 0.
---@class legacy.Hunk
---@field row integer
---@field count integer
---@field new_row integer
---@field new_count integer

local function hunk(row, count, new_row, new_count)
  return { row = row, count = count, new_row = new_row, new_count = new_count }
end

---The differences of two lists of texts without LF, by `vim.diff`.
---@param old string[]
---@param new string[]
---@return legacy.Hunk[]
function M.compare(old, new)
  local hunks = {}
  local function join_lines(list)
    return #list > 0 and table.concat(list, '\n') .. '\n' or ''
  end
  for _, it in ipairs(line_diff(join_lines(old), join_lines(new), { result_type = 'indices', algorithm = 'histogram' })) do
    local row, count, new_row, new_count = unpack(it)
    -- An empty side is named by the line before it, the others by their own first line.
    hunks[#hunks + 1] = hunk(count == 0 and row or row - 1, count, new_count == 0 and new_row or new_row - 1, new_count)
  end
  return hunks
end

---The one group of lines outside of which two lists are equal.
---@param old string[]
---@param new string[]
---@param hint integer|nil a row before which nothing differs: of equal lines the first ones needn't be the same
---@return legacy.Hunk|nil
function M.group(old, new, hint)
  local most = math.min(#old, #new)
  local first, last = 0, 0
  while first < most and first < (hint or most) and old[first + 1] == new[first + 1] do
    first = first + 1
  end
  while last < most - first and old[#old - last] == new[#new - last] do
    last = last + 1
  end
  local count, new_count = #old - first - last, #new - first - last
  return (count > 0 or new_count > 0) and hunk(first, count, first, new_count) or nil
end

---The rows that differ, those beside each other as one hunk.
---@return legacy.Hunk[]
local function rows_of(old, new)
  local hunks = {}
  for row = 0, #old - 1 do
    local last = hunks[#hunks]
    if old[row + 1] ~= new[row + 1] and last and last.row + last.count == row then
      last.count, last.new_count = last.count + 1, last.new_count + 1
    elseif old[row + 1] ~= new[row + 1] then
      hunks[#hunks + 1] = hunk(row, 1, row, 1)
    end
  end
  return hunks
end

---@return legacy.Hunk[]
local function hunks_of(old, new, hint, aligned)
  if aligned and #old == #new then
    return rows_of(old, new)
  end
  local group = M.group(old, new, hint)
  if not group or group.count <= 1 or group.new_count <= 1 then
    return { group }
  end
  local row = group.row
  local lines = vim.list_slice(old, row + 1, row + group.count)
  local new_lines = vim.list_slice(new, row + 1, row + group.new_count)
  local hunks = M.compare(lines, new_lines)
  for _, it in ipairs(hunks) do
    it.row, it.new_row = it.row + row, it.new_row + row
  end
  return hunks
end

---@return boolean whether the byte at a place goes on with a code point
local function continues(text, at)
  local byte = text:byte(at)
  return byte ~= nil and byte >= 128 and byte < 192
end

---How many bytes two texts have in common at their start, and then at their end, in whole code points.
---@param most integer how many may be counted at the start
---@return integer, integer
local function common(old, new, most)
  local shorter = math.min(#old, #new)
  local head, tail = 0, 0
  while head < math.min(shorter, most) and old:byte(head + 1) == new:byte(head + 1) do
    head = head + 1
  end
  while head > 0 and (continues(old, head + 1) or continues(new, head + 1)) do
    head = head - 1
  end
  while tail < shorter - head and old:byte(#old - tail) == new:byte(#new - tail) do
    tail = tail + 1
  end
  while tail > 0 and (continues(old, #old - tail + 1) or continues(new, #new - tail + 1)) do
    tail = tail - 1
  end
  return head, tail
end

---The code points of a text, each a text without LF.
local function code_points(text)
  local list = {}
  for it in text:gmatch('.[\128-\191]*') do
    list[#list + 1] = it == '\n' and 'LF' or it
  end
  return list
end

---The byte at which each code point of a list begins, and the end of the last one.
local function starts_of(list)
  local starts, at = {}, 0
  for i, it in ipairs(list) do
    starts[i - 1] = at
    at = at + (it == 'LF' and 1 or #it)
  end
  starts[#list] = at
  return starts
end

---@return boolean whether two texts have no byte in common
local function are_apart(one, other)
  for at = 1, #other do
    if one:find(other:sub(at, at), 1, true) then
      return false
    end
  end
  return true
end

---Replacements within one text: `{ from, to, text }`, in bytes from 0.
---@param coarse boolean one replacement, of all from the first difference to the last
---@return table[]
local function replacements(old, new, most, coarse)
  local head, tail = common(old, new, most)
  local out, came = old:sub(head + 1, #old - tail), new:sub(head + 1, #new - tail)
  if coarse or out == '' or came == '' or #out > LONGEST or #came > LONGEST then
    return { { head, head + #out, came } }
  end
  if #out <= SHORT and #came <= SHORT and are_apart(out, came) then
    return { { head, head + #out, came } }
  end
  local list, new_list = code_points(out), code_points(came)
  local starts, new_starts = starts_of(list), starts_of(new_list)
  local found = {}
  for i, it in ipairs(M.compare(list, new_list)) do
    local from, to = new_starts[it.new_row], new_starts[it.new_row + it.new_count]
    found[i] = { head + starts[it.row], head + starts[it.row + it.count], came:sub(from + 1, to) }
  end
  return found
end

---@param row integer of the first line
---@param offset integer in bytes from there, an LF behind each line
---@return integer, integer
function M.locate(lines, row, offset)
  while offset > #lines[row + 1] do
    offset = offset - #lines[row + 1] - 1
    row = row + 1
  end
  return row, offset
end

---The text of some rows, with the line end of each that isn't the last of all.
local function text_of(lines, row, count)
  local last = row + count
  return table.concat(lines, '\n', row + 1, last) .. (count > 0 and last < #lines and '\n' or '')
end

---Adds the edits of one hunk to a list, in the order of the text.
---@param hint { row: integer, column: integer }|nil
local function add(edits, old, new, it, hint, coarse)
  local row, count, new_row, new_count = it.row, it.count, it.new_row, it.new_count
  if (count == 0 or new_count == 0) and row + count == #old then
    -- The last line has no line end, so what comes or goes after it takes that of the line before.
    row, count, new_row, new_count = row - 1, count + 1, new_row - 1, new_count + 1
  end
  local most = math.huge
  if hint and hint.row >= row and hint.row < row + count then
    most = hint.column
    for i = row + 1, hint.row do
      most = most + #old[i] + 1
    end
  end
  local text, new_text = text_of(old, row, count), text_of(new, new_row, new_count)
  for _, replacement in ipairs(replacements(text, new_text, most, coarse)) do
    local from_row, column = M.locate(old, row, replacement[1])
    local end_row, end_column = M.locate(old, row, replacement[2])
    edits[#edits + 1] = {
      row = from_row, column = column, end_row = end_row, end_column = end_column, text = replacement[3],
    }
  end
end

---Hunks of as many lines as before line by line, and those too long to be compared by code points as far as that goes.
local function refine_hunks(hunks, old, new)
  local list = {}
  for _, it in ipairs(hunks) do
    local most = math.min(it.count, it.new_count)
    local long = #text_of(old, it.row, it.count) > LONGEST or #text_of(new, it.new_row, it.new_count) > LONGEST
    local paired = (it.count == it.new_count or long) and most or 0
    if it.count ~= it.new_count and most == paired and paired > 0 and it.row + it.count == #old then
      -- What comes or goes after the last line is one edit with the line before it.
      paired = paired - 1
    end
    for i = 0, paired - 1 do
      if old[it.row + i + 1] ~= new[it.new_row + i + 1] then
        list[#list + 1] = hunk(it.row + i, 1, it.new_row + i, 1)
      end
    end
    if it.count > paired or it.new_count > paired then
      list[#list + 1] = hunk(it.row + paired, it.count - paired, it.new_row + paired, it.new_count - paired)
    end
  end
  return list
end

---The edits that make `old` into `new`, that of the last place first.
---@param old string[]
---@param new string[]
---@param hint { row: integer, column: integer }|nil where the only edit began, if that is known
---@param coarse boolean one edit for each group of lines, from the first difference to the last
---@param aligned boolean|nil whether all was edited within lines, so that each has the row that it had
---@return legacy.Edit[]
function M.edits(old, new, hint, coarse, aligned)
  local hunks = hunks_of(old, new, hint and hint.row, aligned)
  local edits, reversed = {}, {}
  for _, it in ipairs(coarse and hunks or refine_hunks(hunks, old, new)) do
    add(edits, old, new, it, hint, coarse)
  end
  for i = #edits, 1, -1 do
    reversed[#reversed + 1] = edits[i]
  end
  return reversed
end

---The one range in which two lists of lines differ, or nil.
---@param old string[]
---@param new string[]
---@return legacy.Edit|nil
function M.span(old, new)
  local edits, group = {}, M.group(old, new, nil)
  if group then
    add(edits, old, new, group, nil, true)
  end
  return edits[1]
end

return M

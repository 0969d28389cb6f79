---Edits of two editors that were made on the same text. No text that one of them put in is lost: where they meet, what
---both take out is out, and what both put in is kept, one after the other.
local diff = require('legacy.diff')

local M = {}

---An edit by bytes of a text: those from one up to another are replaced.
---@class legacy.Replacement
---@field from integer
---@field to integer
---@field text string

---The byte at which each line from one row to another begins, counted from the first of these.
---@param lines string[]
---@param first integer
---@param last integer
---@return table<integer, integer>
local function starts_of(lines, first, last)
  local starts, at = {}, 0
  for row = first, last do
    starts[row] = at
    at = at + #lines[row + 1] + 1
  end
  return starts
end

---@param edits legacy.Edit[] that of the last place first
---@param starts table<integer, integer>
---@return legacy.Replacement[] in the order of the text
local function replacements(edits, starts)
  local list = {}
  for i = #edits, 1, -1 do
    local edit = edits[i]
    list[#list + 1] = {
      from = starts[edit.row] + edit.column,
      to = starts[edit.end_row] + edit.end_column,
      text = edit.text,
    }
  end
  return list
end

---Where a text is put in once mine are made. It comes after what I put in at the same place: there I continue.
---@param mine legacy.Replacement[]
---@param at integer
---@return integer
local function place(mine, at)
  local moved = 0
  for _, it in ipairs(mine) do
    if it.from > at or it.from == at and it.to > at then
      break
    end
    moved = moved + #it.text - (math.min(it.to, at) - it.from)
  end
  return at + moved
end

---What is left of a range once mine are made, as ranges of what they left.
---@param mine legacy.Replacement[]
---@param from integer
---@param to integer
---@return { [1]: integer, [2]: integer }[]
local function ranges_left(mine, from, to)
  local ranges, moved, at = {}, 0, from
  local function add(up_to)
    if up_to > at then
      ranges[#ranges + 1] = { at + moved, up_to + moved }
    end
  end
  for _, it in ipairs(mine) do
    if it.from >= to then
      break
    end
    if it.to > from or it.from > from then
      add(math.min(it.from, to))
      at = math.max(at, it.to)
    end
    moved = moved + #it.text - (it.to - it.from)
  end
  add(to)
  return ranges
end

---Whether two edits changed the same text.
---@param one legacy.Replacement
---@param other legacy.Replacement
local function meet(one, other)
  local low, high = math.max(one.from, other.from), math.min(one.to, other.to)
  if one.text == '' and other.text == '' then
    return false
  end
  return low < high or low == high and (one.from < low and low < one.to or other.from < low and low < other.to)
end

---@param theirs legacy.Replacement
---@param mine legacy.Replacement[]
---@return legacy.Replacement[] in the order of the text
local function move_replacement(theirs, mine)
  local at = place(mine, theirs.from)
  local list = { { from = at, to = at, text = theirs.text } }
  for _, range in ipairs(ranges_left(mine, theirs.from, theirs.to)) do
    if range[1] == list[#list].to then
      list[#list].to = range[2]
    else
      list[#list + 1] = { from = range[1], to = range[2], text = '' }
    end
  end
  if list[1].from == list[1].to and list[1].text == '' then
    table.remove(list, 1)
  end
  return list
end

---Another editor's edits, as they are to be made where mine are made already.
---@param old string[] the lines that all were made on
---@param theirs legacy.Edit[] that of the last place first
---@param mine legacy.Edit[] that of the last place first
---@param lines string[] what mine made of the lines
---@return legacy.Edit[] that of the last place first
---@return boolean whether some of them changed the same text
function M.move_edits(old, theirs, mine, lines)
  if #theirs == 0 or #mine == 0 then
    return theirs, false
  end
  local first = math.min(theirs[#theirs].row, mine[#mine].row)
  local starts = starts_of(old, first, math.max(theirs[1].end_row, mine[1].end_row))
  local own, edits, met = replacements(mine, starts), {}, false
  for _, it in ipairs(replacements(theirs, starts)) do
    for _, each in ipairs(own) do
      met = met or meet(it, each)
    end
    for _, each in ipairs(move_replacement(it, own)) do
      local row, column = diff.locate(lines, first, each.from)
      local end_row, end_column = diff.locate(lines, first, each.to)
      table.insert(edits, 1, { row = row, column = column, end_row = end_row, end_column = end_column, text = each.text })
    end
  end
  return edits, met
end

return M

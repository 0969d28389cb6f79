---Whether an edit was made whose reply was lost. The program doesn't know who made an edit, so what came since has to tell.
local diff = require('legacy.diff')
local splicing = require('legacy.splices')
local task = require('legacy.task')

local M = {}

---Differences for which the fewest are sought; how many tell of a long edit beyond doubt, and how many at least of any.
local MOST, TELLING, FEWEST = 1000, 32, 2

---A document at one revision, and what `since` replied for earlier ones.
---@class legacy.View
---@field rev integer
---@field bytes string
---@field since table[]

---Whether `since` names these bytes. If an edit replaced none by none, `since` names no place.
---@param since table
---@param at integer
---@param del integer
---@param ins integer
---@return boolean
local function is_edit(since, at, del, ins)
  local is_empty = del == 0 and ins == 0
  return since.at == (is_empty and 0 or at) and since.del == del and since.ins == ins
end

---Whether an edit and the later ones together are what `since` says of all of them. The fewest bytes that one of them leaves
---at the beginning and at the end are those that all of them leave.
---@param bytes string those before the edit
---@param mine legacy.Splice
---@param first table what came since the edit's revision
---@param later table what came since the next revision
---@param count integer bytes of the document now
---@return boolean
local function is_joined(bytes, mine, first, later, count)
  local at = later.at
  if later.del == 0 and later.ins == 0 then
    -- (if the later ones left nothing, their place is unknown: it was at the end of what isn't this edit's)
    at = first.at < mine.at and first.at or first.at + first.ins
  end
  local made = #bytes - #mine.gone + #mine.put
  local rest = math.min(#bytes - mine.at - #mine.gone, made - at - later.del)
  local front = math.min(mine.at, at)
  return is_edit(first, front, #bytes - rest - front, count - rest - front)
end

---How many bytes of text an edit takes out.
---@param lines string[]
---@param edit legacy.Edit
---@return integer
local function taken_out(lines, edit)
  local size = edit.end_column - edit.column
  for row = edit.row + 1, edit.end_row do
    size = size + #lines[row] + 1
  end
  return size
end

---How far two texts are equal from places of theirs on, as the place in the first.
---@param from string
---@param at integer
---@param to string
---@param to_at integer
---@return integer
local function equal_up_to(from, at, to, to_at)
  local count = 0
  while at + count < #from and to_at + count < #to and from:byte(at + count + 1) == to:byte(to_at + count + 1) do
    count = count + 1
  end
  return at + count
end

---Bytes that are put in or taken out between two texts, at most `MOST` of them: the fewest (by the algorithm of Myers).
---@param from string
---@param to string
---@return integer|nil nil if there are more
local function distance(from, to)
  local differing = splicing.between(from, to)
  from, to = differing.gone, differing.put
  -- How far of the first text so many differences lead, by how many bytes more of it than of the second are passed.
  local reached = { [0] = 0 }
  for count = 0, MOST do
    local next_reached = {}
    for more = -count, count, 2 do
      local by_put, by_taking = reached[more + 1], reached[more - 1]
      local at = count == 0 and 0 or math.max(by_put or 0, by_taking and by_taking + 1 or 0)
      at = equal_up_to(from, at, to, at - more)
      if at >= #from and at - more >= #to then
        return count
      end
      next_reached[more] = at
    end
    reached = next_reached
    -- (many of them take half a second)
    task.breathe()
  end
end

---How many bytes differ between two texts, if they are compared by lines.
---@param from string
---@param to string
---@return integer
local function distance_by_lines(from, to)
  local lines, size = vim.split(from, '\n', { plain = true }), 0
  for _, edit in ipairs(diff.edits(lines, vim.split(to, '\n', { plain = true }), nil, false)) do
    size = size + #edit.text + taken_out(lines, edit)
  end
  return size
end

---Whether bytes are nearer to others with an edit than without it. If they are as near to both, they are said not to have it: to
---put text in twice is better than to lose it.
---@param now string
---@param with string
---@param without string
---@return boolean
---@return boolean whether that is beyond doubt: all of the edit tells, or much of a long one
local function is_nearer(now, with, without)
  local far, near = distance(without, now), distance(with, now)
  if not far and not near then
    return distance_by_lines(with, now) < distance_by_lines(without, now), false
  end
  far, near = far or MOST + 1, near or MOST + 1
  local own = math.min(distance(without, with) or TELLING, TELLING)
  return near < far, math.abs(far - near) >= math.max(own, FEWEST)
end

---Whether an edit made the revision after the one that it names. An equal edit of another editor is treated as this one. If
---others edited the very bytes that would tell, or if the program has forgotten too much, the bytes decide that are there now.
---@param bytes string of the revision that the edit names
---@param mine legacy.Splice
---@param rev integer
---@param view legacy.View with what came since that revision, and since the next one
---@return boolean
---@return boolean whether that is beyond doubt
function M.is_made(bytes, mine, rev, view)
  local first, later = view.since[1], view.since[2]
  local made = splicing.apply_splices(bytes, { mine })
  if view.rev <= rev then
    return false, true
  elseif view.rev == rev + 1 then
    return view.bytes == made and (first.fault ~= nil or is_edit(first, mine.at, #mine.gone, #mine.put)), true
  elseif first.fault or later.fault then
    return is_nearer(view.bytes, made, bytes)
  elseif splicing.patch_bytes(made, later, view.bytes) ~= view.bytes or not is_joined(bytes, mine, first, later, #view.bytes) then
    return false, true
  elseif mine.at + #mine.put <= later.at or mine.at >= later.at + later.del then
    return true, true
  end
  return is_nearer(view.bytes, made, bytes)
end

return M

---One's own edits after which others have edited, as bytes: which splices take them back, or make them again, in the
---document as it is now. Neovim's own undo tree can't have them, since it would take back what others wrote.
local splicing = require('legacy.splices')

---A splice, and by how much making it grows the text: in bytes of UTF-8, and in code points.
---@class legacy.OwnSplice: legacy.Splice
---@field grown integer[]

---What one step takes back, or makes again.
---@class legacy.Group
---@field key integer|nil the state of Neovim's undo tree that it was
---@field splices legacy.OwnSplice[] the last one is to be made first
---@field met boolean whether another editor changed what it is about, so that it can't be made

---@class legacy.Past
---@field private stacks table<'undo'|'redo', legacy.Group[]> the last group is the next one
local Past = {}
Past.__index = Past

---The most steps that are kept: Neovim's default.
local MOST = 1000

---@return legacy.Past
function Past.new()
  return setmetatable({ stacks = { undo = {}, redo = {} } }, Past)
end

---Other bytes in place of some, by their numbers alone.
---@class legacy.Patch
---@field at integer
---@field del integer
---@field ins integer

---What two patches are, one after the other.
---@param first legacy.Patch
---@param second legacy.Patch
---@return legacy.Patch
local function both(first, second)
  local low = math.min(first.at, second.at)
  local high = math.max(first.at + first.ins, second.at + second.del)
  return { at = low, del = high + first.del - first.ins - low, ins = high + second.ins - second.del - low }
end

---Where splices lie once others have made a patch before them, and the patch after them; or nil if they meet.
---@param splices legacy.OwnSplice[]
---@param patch legacy.Patch
---@return integer[]|nil
---@return legacy.Patch|nil
local function places_before(splices, patch)
  local places = {}
  for i = #splices, 1, -1 do
    local splice = splices[i]
    if patch.at >= splice.at + #splice.gone then
      places[i] = splice.at
      patch = { at = patch.at + #splice.put - #splice.gone, del = patch.del, ins = patch.ins }
    elseif patch.at + patch.del <= splice.at then
      places[i] = splice.at + patch.ins - patch.del
    else
      return nil
    end
  end
  return places, patch
end

---What a group that isn't made is for the later ones: a part of what others did.
---@param group legacy.Group
---@param patch legacy.Patch|nil before it
---@return legacy.Patch|nil after it
local function stays(group, patch)
  for i = #group.splices, 1, -1 do
    local splice = group.splices[i]
    local back = { at = splice.at, del = #splice.put, ins = #splice.gone }
    patch = patch and both(back, patch) or back
  end
  return patch
end

---@param group legacy.Group
---@param patch legacy.Patch before what it is about
---@return legacy.Patch after it
local function pass(group, patch)
  local places, behind = places_before(group.splices, patch)
  if places then
    for i, place in ipairs(places) do
      group.splices[i].at = place
    end
    return behind
  end
  local rest = stays(group, patch)
  group.met, group.splices = true, {}
  return rest
end

---Moves all past what others did to the document as it is now.
---@param splice legacy.Splice
function Past:arrive(splice)
  for _, stack in pairs(self.stacks) do
    local patch = { at = splice.at, del = #splice.gone, ins = #splice.put }
    for i = #stack, 1, -1 do
      patch = pass(stack[i], patch)
    end
  end
end

---Adds what takes splices back that were made, one after the other, in the document as it is now.
---@param which 'undo'|'redo'
---@param made legacy.OwnSplice[]
---@param key integer|nil of the group that they belong to
function Past:add(which, made, key)
  local stack = self.stacks[which]
  if #made == 0 then
    return
  end
  local group = stack[#stack]
  if not key or not group or group.key ~= key or group.met then
    group = { key = key, splices = {}, met = false }
    stack[#stack + 1] = group
  end
  for _, splice in ipairs(made) do
    group.splices[#group.splices + 1] = splicing.inverse(splice)
  end
  if #stack > MOST then
    table.remove(stack, 1)
  end
end

---Adds what makes a step again that was taken back in the document as it is now.
---@param made legacy.OwnSplice[] in the order in which they are to be made
function Past:add_redo(made)
  local splices = {}
  for i = #made, 1, -1 do
    splices[#splices + 1] = made[i]
  end
  table.insert(self.stacks.redo, { splices = splices, met = false })
end

---Forgets what could be made again: after a new edit nothing is.
function Past:cut()
  self.stacks.redo = {}
end

---@param which 'undo'|'redo'
---@return legacy.Group|nil
function Past:next(which)
  local stack = self.stacks[which]
  return stack[#stack]
end

---Takes the next group away, once it was made.
---@param which 'undo'|'redo'
function Past:drop(which)
  table.remove(self.stacks[which])
end

---Removes the next group, which is not made. The later ones lead on from the document as it is.
---@param which 'undo'|'redo'
function Past:refuse(which)
  local stack = self.stacks[which]
  local group = table.remove(stack)
  local patch = stays(group, nil)
  for i = patch and #stack or 0, 1, -1 do
    patch = pass(stack[i], patch)
  end
end

return Past

---Splices of bytes that are made one after another, as of a change in every line. A copy of the bytes for each would
---cost the document's length each time, so as many as possible are made in one pass.
local diff = require('legacy.diff')

local M = {}

---Bytes replaced by bytes, at a place of the bytes as the splices before it left them.
---@class legacy.Splice
---@field at integer
---@field gone string the bytes taken out
---@field put string the bytes put in

---The splices starting at one that go up, or that go down, without meeting the one before; in order of their places before
---any of them is made.
---@param splices legacy.Splice[]
---@param first integer
---@return { at: integer, splice: legacy.Splice }[]
local function run_from(splices, first)
  local second = splices[first + 1]
  local down = second ~= nil and second.at + #second.gone <= splices[first].at
  local run, moved = {}, 0
  for i = first, #splices do
    local it, last = splices[i], splices[i - 1]
    if i > first and down and it.at + #it.gone > last.at or i > first and not down and it.at < last.at + #last.put then
      break
    end
    run[#run + 1] = { at = it.at - moved, splice = it }
    moved = down and 0 or moved + #it.put - #it.gone
  end
  if down then
    for i = 1, math.floor(#run / 2) do
      run[i], run[#run + 1 - i] = run[#run + 1 - i], run[i]
    end
  end
  return run
end

---How many bytes are compared at once.
local STRETCH = 4096

---The splice between what two lists of bytes have in common at their ends.
---@param old string
---@param new string
---@return legacy.Splice
function M.between(old, new)
  local shorter = math.min(#old, #new)
  local head, tail = 0, 0
  while head + STRETCH <= shorter and old:sub(head + 1, head + STRETCH) == new:sub(head + 1, head + STRETCH) do
    head = head + STRETCH
  end
  while head < shorter and old:byte(head + 1) == new:byte(head + 1) do
    head = head + 1
  end
  local most = shorter - head
  while tail + STRETCH <= most and old:sub(-tail - STRETCH, -tail - 1) == new:sub(-tail - STRETCH, -tail - 1) do
    tail = tail + STRETCH
  end
  while tail < most and old:byte(-tail - 1) == new:byte(-tail - 1) do
    tail = tail + 1
  end
  return { at = head, gone = old:sub(head + 1, #old - tail), put = new:sub(head + 1, #new - tail) }
end

---The bytes at which pieces begin that are joined by LF, and at last the end of all.
---@param pieces string[]
---@return integer[]
local function starts_of(pieces)
  local starts, at = {}, 0
  for i, piece in ipairs(pieces) do
    starts[i - 1] = at
    at = at + #piece + 1
  end
  starts[#pieces] = at - 1
  return starts
end

---The splices, one after the other, that make what a wide one makes, without the bytes between two LF that stay.
---@param splice legacy.Splice
---@return legacy.Splice[]
function M.parts(splice)
  if not splice.gone:find('\n', 1, true) or not splice.put:find('\n', 1, true) then
    return { splice }
  end
  local old = vim.split(splice.gone, '\n', { plain = true })
  local new = vim.split(splice.put, '\n', { plain = true })
  local starts, new_starts = starts_of(old), starts_of(new)
  local parts, moved = {}, 0
  for _, it in ipairs(diff.compare(old, new)) do
    local row, new_row = it.row, it.new_row
    if row + it.count == #old and (it.count == 0 or it.new_count == 0) then
      -- The last piece has no LF, so what comes or goes after it takes that of the piece before.
      row, new_row = row - 1, new_row - 1
    end
    local from, new_from = starts[row], new_starts[new_row]
    local gone = splice.gone:sub(from + 1, starts[it.row + it.count])
    local part = M.between(gone, splice.put:sub(new_from + 1, new_starts[it.new_row + it.new_count]))
    parts[#parts + 1] = { at = splice.at + from + part.at + moved, gone = part.gone, put = part.put }
    moved = moved + #part.put - #part.gone
  end
  return parts
end

---Bytes from before, with what came since taken from those now.
---@param bytes string
---@param since table the reply of that name
---@param now string
---@return string
function M.patch_bytes(bytes, since, now)
  return bytes:sub(1, since.at) .. now:sub(since.at + 1, since.at + since.ins) .. bytes:sub(since.at + since.del + 1)
end

---@param splice legacy.OwnSplice
---@return legacy.OwnSplice that takes it back
function M.inverse(splice)
  local grown = splice.grown
  return { at = splice.at, gone = splice.put, put = splice.gone, grown = { -grown[1], -grown[2] } }
end

---@param bytes string
---@param splices legacy.Splice[]
---@return string
function M.apply_splices(bytes, splices)
  local first = 1
  while first <= #splices do
    local run = run_from(splices, first)
    local pieces, from = {}, 0
    for _, it in ipairs(run) do
      pieces[#pieces + 1] = bytes:sub(from + 1, it.at)
      pieces[#pieces + 1] = it.splice.put
      from = it.at + #it.splice.gone
    end
    pieces[#pieces + 1] = bytes:sub(from + 1)
    bytes = table.concat(pieces)
    first = first + #run
  end
  return bytes
end

return M

---Undo and redo if other editors edit too: of one's own edits alone, byte for byte. Neovim's undo tree knows those since
---the last one of another; what was before that is kept as splices, and moved by what others do.
local History = require('legacy.history')
local Past = require('legacy.past')
local arrivals = require('legacy.arrivals')
local messages = require('legacy.messages')
local splicing = require('legacy.splices')
local task = require('legacy.task')

local api = vim.api

---@class legacy.Undoing
---@field private sharing legacy.Sharing
---@field private buffer legacy.Buffer
---@field private past legacy.Past
---@field mixed boolean whether Neovim's undo tree has others' edits among one's own
local Undoing = {}
Undoing.__index = Undoing

---How often what others were before is tried again.
local TRIES = 10

---@param sharing legacy.Sharing
---@param buffer legacy.Buffer
---@return legacy.Undoing
function Undoing.new(sharing, buffer)
  return setmetatable({ sharing = sharing, buffer = buffer, past = Past.new(), mixed = false }, Undoing)
end

---Moves one's own edits past what others did.
---@param splice legacy.Splice
function Undoing:arrive(splice)
  for _, part in ipairs(splicing.parts(splice)) do
    self.past:arrive(part)
  end
end

---Keeps what Neovim's undo tree knows, after which others edited.
function Undoing:retire()
  local made, undone = self.buffer.history:splices(self.buffer:undo_tree())
  for _, it in ipairs(made) do
    self.past:add('undo', it.splices, it.key)
  end
  for i = #undone, 1, -1 do
    self.past:add_redo(undone[i].splices)
  end
end

---An edit was made here: what was taken back can't be made again.
function Undoing:cut_redo()
  self.past:cut()
end

---Changes the buffer as others did. Undo knows nothing of it, or, while text is inserted, mixes it up with that until then.
---@param change fun(options: table)
function Undoing:change(change)
  local buffer = self.buffer
  self.mixed = buffer:is_inserting()
  if self.mixed then
    buffer:by_itself(function()
      change(vim.bo[buffer.number])
    end)
    buffer.history = History.new(buffer:undo_tree().seq_cur)
  else
    buffer:without_undo(change)
  end
end

---Has Neovim's undo tree forget what is mixed up in it, once no text is inserted.
function Undoing:rest()
  local buffer = self.buffer
  if not self.mixed or buffer.closed or buffer:is_inserting() then
    return
  end
  pcall(buffer.sending.sync, buffer.sending)
  if self.mixed and not buffer:is_inserting() and not buffer.dirty then
    self:retire()
    buffer:without_undo(function() end)
    self.mixed = false
  end
end

---Milliseconds for which undo waits for the program before it continues by what is known.
local PATIENCE = 40

---@private
---@param which 'undo'|'redo'
---@return boolean whether Neovim's undo tree knows one's own next step
function Undoing:is_known(which)
  if which == 'undo' then
    return not self.buffer.history:at_root()
  end
  for _, entry in ipairs(self.buffer:undo_tree().entries) do
    if entry.curhead ~= nil then
      return true
    end
  end
  return false
end

---Undoes or redoes: by Neovim's undo tree, as far as it knows one's own edits, and then by what is kept of them. Where the
---program takes long to answer this is done later.
---@param which 'undo'|'redo'
function Undoing:step(which)
  local buffer = self.buffer
  self.sharing:look(PATIENCE)
  if not self.mixed and (buffer.dirty or self:is_known(which)) then
    vim.cmd(which)
    task.await(function()
      buffer.turns:take(function()
        buffer.sending:sync()
      end)
    end, PATIENCE)
    return
  end
  task.await(function()
    buffer.turns:take(function()
      self:rest()
      self:go_back(which)
    end)
  end, PATIENCE)
end

---Undoes or redoes by what is kept of one's own edits.
---@private
---@param which 'undo'|'redo'
function Undoing:go_back(which)
  for _ = 1, TRIES do
    local group = self.past:next(which)
    if not group then
      messages.tell(which == 'undo' and 'already at the oldest change' or 'already at the newest change')
      return
    elseif group.met then
      self.past:drop(which)
      messages.warn(('no %s: another editor has changed this text; the next %s leads on'):format(which, which))
      return
    elseif self:make(which, group) then
      return
    end
    self.sharing:look_alone()
  end
end

---Whether the text is what one's own edit should have made of it: where others put text beside it, its bytes may be read as
---something else together with theirs.
---@private
---@param arrival legacy.Arrival what came of it
---@param before table what `stat` said
---@param splices legacy.OwnSplice[]
---@return boolean
function Undoing:is_sound(arrival, before, splices)
  local utf8, utf32 = before.utf8, before.utf32
  for _, splice in ipairs(splices) do
    utf8, utf32 = utf8 + splice.grown[1], utf32 + splice.grown[2]
  end
  if arrival.sums.utf8 ~= utf8 or arrival.sums.utf32 ~= utf32 then
    return false
  elseif arrival.rows or not arrival.last or not self.buffer.mirror:plain() then
    return true
  end
  local last = vim.split(arrival.text, self.buffer.mirror.line_end, { plain = true })
  local behind, old = #last - arrival.last - 1, self.buffer.mirror.lines
  for i = 0, behind - 1 do
    if last[#last - i] ~= old[#old - i] then
      return false
    end
  end
  return true
end

---Shows what came of splices that were made, if it is what they should have made. Otherwise takes them back.
---@private
---@param which 'undo'|'redo'
---@param splices legacy.OwnSplice[]
---@param before table what `stat` said before
---@param bytes string those before
---@return boolean whether something was shown or said
function Undoing:show(which, splices, before, bytes)
  local buffer, document = self.buffer, self.buffer.document
  local made, rev = document.bytes, document.rev
  local arrival = arrivals.take(document, buffer.mirror, before.rev, bytes)
  if not arrival then
    self.past:drop(which)
    return false
  end
  local is_sound = arrival.rev ~= rev or self:is_sound(arrival, before, splices)
  if not is_sound and document:splice({ splicing.between(made, bytes) }) then
    self.past:refuse(which)
    messages.warn(('no %s: what another editor put in would be read as another text'):format(which))
    return true
  end
  self.past:drop(which)
  self.past:add(which == 'undo' and 'redo' or 'undo', splices)
  if document.bytes ~= made then
    self:arrive(splicing.between(made, document.bytes))
  end
  local edits = self.sharing:show(arrival)
  local first = edits[#edits]
  if first and api.nvim_get_current_buf() == buffer.number then
    api.nvim_win_set_cursor(0, { first.row + 1, first.column })
  end
  return first ~= nil
end

---Takes back one's own edits, or makes them again.
---@private
---@param which 'undo'|'redo'
---@param group legacy.Group
---@return boolean whether that is done with
function Undoing:make(which, group)
  local buffer, document, splices = self.buffer, self.buffer.document, {}
  for i = #group.splices, 1, -1 do
    splices[#splices + 1] = group.splices[i]
  end
  local rev, bytes, before = document.rev, document.bytes, document:must({ op = 'stat' })
  if before.rev ~= rev or not document:splice(splices) then
    return false
  end
  local done = false
  self.sharing:taking(function()
    done = self:show(which, splices, before, bytes)
  end)
  buffer.sending:sync()
  return done
end

return Undoing

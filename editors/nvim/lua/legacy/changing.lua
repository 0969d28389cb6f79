---What a document does with changes of its text: one, each with its plan, or many as lists; and which of them were made whose
---replies were lost.
local base64 = require('legacy.base64')
local outcome = require('legacy.outcome')
local record = require('legacy.record')
local splicing = require('legacy.splices')

---@class legacy.Document
local Changing = {}

---Characters that are asked for at once, and changes of a list.
local LIST, MOST = 500, 1000

---Whether a splice was made that had no reply, as the first edit after the revision known here. If so, the document has it,
---and is `behind` if others edited after it. The server's record tells, or else what came since.
---@private
---@param splice legacy.Splice
---@param sent integer[] the numbers of the commands that were to make it
---@return boolean
---@return boolean whether that is known
function Changing:find_splice(splice, sent)
  local view = self:view(self.connection, { self.rev, self.rev + 1 })
  if not view or view.rev <= self.rev then
    return false, true
  end
  local is_made, is_known = record.has_made(self.connection.words, sent, self.known), true
  if is_made == nil then
    is_made, is_known = outcome.is_made(self.bytes, splice, self.rev, view)
  end
  if is_made then
    self.rev, self.bytes, self.unsure = self.rev + 1, splicing.apply_splices(self.bytes, { splice }), false
    self.behind = view.rev ~= self.rev
  end
  return is_made, is_known
end

---The splice by which a change or a list of changes was made whose reply was lost; nil if it wasn't made. A document of the
---bytes from before shows what it would do.
---@param lost legacy.Lost
---@return legacy.Splice|nil
---@return boolean whether it is known that it was made, or that it wasn't
function Changing:recover(lost)
  self:reach()
  if self.life ~= lost.life or not self.behind then
    return nil, true
  end
  local splice = lost.is_list and self:imitate(lost.changes) or not lost.is_list and self:on_copy(function(copy)
    return copy:change(lost.changes)[1]
  end) or nil
  if not splice or splice.fault then
    return nil, true
  end
  local is_made, is_known = self:find_splice(splice, lost.sent)
  return is_made and splice or nil, is_known
end

---Calls with a document of the same bytes, open for that alone.
---@private
---@generic T
---@param call fun(copy: legacy.Document): T
---@return T|nil
function Changing:on_copy(call)
  local copy = self.open(self.connect, self.label, self.bytes, self.part)
  local result = copy and call(copy)
  if copy then
    copy:close()
  end
  return result
end

---The splice that a list of changes is.
---@private
---@param changes table[]
---@return legacy.Splice|table|nil
function Changing:imitate(changes)
  return self:on_copy(function(copy)
    local taken, made = copy:change_all(changes)
    return made == #changes and taken or nil
  end)
end

---Sends a long list of changes as lists for which one command has room. Behind one that is refused none is made.
---@private
---@param changes table[]
---@return integer how many were made
---@return table what was replied to the last one that was made, or to the first one that wasn't
---@return table what came since
function Changing:send_lists(changes)
  local commands = {}
  for first = 1, #changes, MOST do
    local list = vim.tbl_map(function(it)
      return { range = it.range, text = it.text }
    end, vim.list_slice(changes, first, first + MOST - 1))
    commands[#commands + 1] = { op = 'changes', unit = 'utf-8', changes = list }
  end
  commands[#commands + 1] = { op = 'since' }
  local replies = self:ask(commands)
  local since, made, last = table.remove(replies), 0, replies[1]
  for _, reply in ipairs(replies) do
    if reply.fault then
      break
    end
    made, last = made + reply.applied, reply
  end
  return made, last, since
end

---Makes a list of changes: all or none if editors share the document, otherwise the first ones of them, by thousands.
---@param changes table[] each with `range` and `text`, in bytes of UTF-8, those of the last place first
---@return legacy.Splice|table|nil what was taken, or the reply that refuses the first ones; nil where another editor was first
---@return integer how many were made
function Changing:change_all(changes)
  local made, last, since = self:send_lists(changes)
  local life = self.life
  if last.fault == 'Stale' and self.shared then
    self.behind = true
    return nil, 0
  elseif last.fault then
    return last, 0
  end
  local taken = self:taken_since(since, last.rev) or self:imitate(vim.list_slice(changes, 1, made))
  if self.life ~= life then
    -- The server came again without the document, which was then opened from the bytes before the changes.
    return nil, 0
  elseif not taken or taken.fault then
    -- The changes were made all the same. The program starts again, with the bytes from before.
    self.connection:stop()
    error('legacy: what was changed is not known', 0)
  end
  self.rev, self.encoding, self.bytes = last.rev, last.encoding, splicing.apply_splices(self.bytes, { taken })
  return taken, made
end

---What came since the revision known here, if it was one edit up to another revision.
---@private
---@param since table
---@param rev integer
---@return legacy.Splice|nil
function Changing:taken_since(since, rev)
  if since.fault or since.rev ~= rev then
    return nil
  end
  local gone = self.bytes:sub(since.at + 1, since.at + since.del)
  if since.ins == 0 then
    return { at = since.at, gone = gone, put = '' }
  end
  local source = self:ask({ { op = 'source', at = since.at, len = since.ins } })[1]
  if source.fault or source.rev ~= rev then
    return nil
  end
  return { at = since.at, gone = gone, put = base64.decode(source.bytes) }
end

---The characters among some that the effective encoding lacks.
---@param characters string[]
---@return table<string, boolean>
function Changing:lacks(characters)
  local place, lacks = { line = 0, character = 0 }, {}
  for first = 1, #characters, LIST do
    local some = vim.list_slice(characters, first, first + LIST - 1)
    local commands = vim.tbl_map(function(it)
      return { op = 'plan', unit = 'utf-8', range = { start = place, ['end'] = place }, text = it }
    end, some)
    for i, reply in ipairs(self:ask(commands)) do
      lacks[some[i]] = reply.fault == 'Unencodable' or nil
    end
  end
  return lacks
end

---Asks for changes of the text, all in flight, each after its plan, which has the bytes that are taken out and put in.
---After a refusal the revisions are wrong, and the later changes are left undecided.
---@param changes table[] each with `range` and `text`, in bytes of UTF-8
---@return (legacy.Splice|table)[] the decided ones: what was taken, or the reply that refuses
function Changing:change(changes)
  local commands = {}
  for _, change in ipairs(changes) do
    for _, op in ipairs({ 'plan', 'change' }) do
      commands[#commands + 1] = { op = op, unit = 'utf-8', range = change.range, text = change.text }
    end
  end
  local decided, taken, replies = {}, {}, self:ask(commands)
  for i = 2, #replies, 2 do
    local plan, reply = replies[i - 1], replies[i]
    if reply.fault == 'Stale' and #decided > #taken then
      break
    elseif reply.fault == 'Stale' and self.shared then
      self.behind = true
      break
    elseif reply.fault then
      decided[#decided + 1] = reply
    elseif plan.fault then
      -- The change was made all the same. The program starts again, with the bytes from before.
      self.connection:stop()
      error('legacy: a change was not planned: ' .. plan.fault, 0)
    else
      self.rev, self.encoding = reply.rev, reply.encoding
      taken[#taken + 1] = { at = plan.at, gone = base64.decode(plan.old), put = base64.decode(plan.bytes) }
      decided[#decided + 1] = taken[#taken]
    end
  end
  if not self:has(taken) then
    self:doubt()
  end
  self.bytes = splicing.apply_splices(self.bytes, taken)
  return decided
end

---Whether all bytes that splices took out were there, each after those before it.
---@private
---@param taken legacy.Splice[]
---@return boolean
function Changing:has(taken)
  -- (those of a list are compared when they are applied)
  local first = taken[1]
  return not first or self.bytes:sub(first.at + 1, first.at + #first.gone) == first.gone
end

return Changing

---Brings a document in step with its buffer: what was edited is sent, as small changes of the text, while its user types on.
local Lacking = require('legacy.lacking')
local Leaving = require('legacy.leaving')
local diff = require('legacy.diff')
local journals = require('legacy.journal')
local merge = require('legacy.merge')
local messages = require('legacy.messages')
local mirrors = require('legacy.mirror')
local task = require('legacy.task')
local utf8 = require('legacy.utf8')

local api = vim.api

---@class legacy.Sending
---@field private buffer legacy.Buffer
---@field most integer changes of a list
---@field private window integer how many changes go out together, each with its plan
---@field private lost legacy.Lost|nil what was sent, and has no reply yet
---@field private unmade legacy.Lost|nil what had no reply, and wasn't made when the server was asked
---@field private lacking legacy.Lacking
---@field private held integer|nil the buffer's tick when what was typed was kept last
---@field private is_waiting boolean|nil whether the beginning of a character waits for the rest
---@field private has_waited boolean|nil whether it has waited for long
local Sending = {}
Sending.__index = Sending

---@class legacy.Lost
---@field edits legacy.Edit[]
---@field changes table[] the same as the document takes them
---@field life integer
---@field rev integer the revision that they name
---@field is_list boolean whether they were sent as one list
---@field sent integer[] the numbers of the commands that have no reply

---An edit that the document can't have.
---@class legacy.Refused
---@field edit legacy.Edit
---@field reply table

local MOST_IN_FLIGHT, MOST_IN_LIST, MOST_ALONE = 256, 1000, 10000

---How many edits are kept before they are in the document.
local MOST_HELD = 1000

---How often an edit is made again that other editors preceded, and how many parts of a refused text are tried.
local TRIES, MOST_PARTS = 10, 64

---Milliseconds for which the beginning of a character waits for its rest.
Sending.PATIENCE = 5000

---@param buffer legacy.Buffer
---@return legacy.Sending
function Sending.new(buffer)
  local self = setmetatable({ buffer = buffer, window = MOST_IN_FLIGHT }, Sending)
  self.most = buffer.document.shared and MOST_IN_LIST or MOST_ALONE
  self.lacking = Lacking.new(buffer.document)
  return self
end

---The document's line ends are its own: a buffer with another 'fileformat' would hide what they are.
---@private
function Sending:keep_format()
  local buffer = self.buffer
  local own = buffer.mirror.line_end == '\r\n' and 'dos' or 'unix'
  if vim.bo[buffer.number].fileformat ~= own then
    vim.bo[buffer.number].fileformat = own
    messages.warn("'fileformat' is set by the file's line ends; an edit changes them")
  end
end

---The steps to the state that undo or redo led to, that state, and the known one from which it is made, or which it is.
---@private
---@return legacy.Step[]|nil nil where the document is in that state
---@return integer key
---@return integer target
function Sending:way()
  local history, tree = self.buffer.history, self.buffer:undo_tree()
  local key = history:key(tree)
  if key == history.current then
    return nil, key, key
  end
  local target = history:knows(key) and key or history:base(tree, key)
  return history:way(target), key, target
end

---Puts back the bytes of the state that undo or redo led to, even while more of them come.
---@private
---@return boolean whether another editor wasn't first
function Sending:follow_undo()
  local buffer = self.buffer
  local steps, key, target = self:way()
  while steps do
    local splices, history = {}, buffer.history
    for i, step in ipairs(steps) do
      splices[i] = step.taken
    end
    if not buffer.document:splice(splices) then
      return false
    end
    for _, step in ipairs(steps) do
      buffer.mirror:replace(step.rows)
    end
    buffer:keep()
    buffer.aligned = buffer.aligned and #steps == 0
    history.current = target
    if target ~= key then
      history:begin(key)
    end
    steps, key, target = self:way()
  end
  return true
end

---Puts text back that was undone while another editor was first. What was typed since then stays.
---@private
function Sending:redo()
  local buffer, steps = self.buffer, self:way()
  if not steps then
    return
  end
  local undone = mirrors.copy(buffer.mirror)
  for _, step in ipairs(steps) do
    undone:replace(step.rows)
  end
  self:put_back(undone.lines, buffer:lines())
  messages.warn('not undone: another editor has edited meanwhile; undo again')
end

---Takes in what another editor did first.
---@private
function Sending:give_way()
  self:redo()
  self.buffer.sharing:take_in()
end

---Edits whose text is longer than a command takes become several, each at their end, that of the last part first.
---@param edits legacy.Edit[]
---@param most integer bytes of a text
---@return legacy.Edit[]
local function in_parts(edits, most)
  local list = {}
  for _, edit in ipairs(edits) do
    local text = edit.text
    while #text > most do
      local from = #text - most
      while from > 0 and text:byte(from + 1) >= 128 and text:byte(from + 1) < 192 do
        from = from - 1
      end
      local row, column = edit.end_row, edit.end_column
      list[#list + 1] = { row = row, column = column, end_row = row, end_column = column, text = text:sub(from + 1) }
      text = text:sub(1, from)
    end
    list[#list + 1] = vim.tbl_extend('force', edit, { text = text })
  end
  return list
end

---@param text string
local function warn_of_copy(text)
  if text:find('\239\191\189', 1, true) then
    messages.warn('U+FFFD is put in as a character; a damaged byte is not copied as text')
  end
end

---Records what was made of lines.
---@private
---@param taken legacy.Splice
---@param rows legacy.Rows
function Sending:record(taken, rows)
  local buffer = self.buffer
  taken.grown = buffer.mirror:growth(rows)
  buffer.mirror:replace(rows)
  buffer.history:record({ taken = taken, rows = rows })
  if buffer.sharing then
    buffer.sharing.undoing:cut_redo()
  end
end

---Takes in what was made of edits that were sent.
---@private
---@param lost legacy.Lost what was sent
---@param decided (legacy.Splice|table)[] of the first ones; of a list the one splice that it was, if it was made
function Sending:took(lost, decided)
  local mirror = self.buffer.mirror
  if lost.is_list and decided[1] then
    self:record(decided[1], mirror:rows_of(lost.edits))
  end
  for i, reply in ipairs(decided) do
    if not reply.fault and not lost.is_list then
      self:record(reply, mirror:rows(lost.edits[i]))
    end
  end
  for i = 1, lost.is_list and decided[1] and #lost.edits or #decided do
    if lost.is_list or not decided[i].fault then
      warn_of_copy(lost.edits[i].text)
    end
  end
  self.buffer:keep(#decided == 1 and not decided[1].fault and decided[1] or nil)
end

---Sends what `lost` has. If a server that editors share ends before it replies, finds out what was made once it has come
---again. If the edit wasn't made then, a slow server may still make it, and the next try is refused: so it is found out again.
---@private
---@param lost legacy.Lost
---@return (legacy.Splice|table)[] what became of the first ones
---@return integer how many of them that is
function Sending:change(lost)
  local document = self.buffer.document
  self.lost = document.shared and lost or nil
  local call = lost.is_list and document.change_all or document.change
  document.edit = nil
  local done, decided, count = pcall(call, document, lost.changes)
  if not done and self.lost then
    local before = self.unmade and self.unmade.rev == lost.rev and self.unmade.sent or {}
    lost.sent = vim.list_extend({ document.edit and document.edit.id }, before)
    return self:recover()
  elseif not done then
    error(decided, 0)
  elseif document.behind and self.unmade and self.unmade.rev == document.rev then
    self.lost = self.unmade
    return self:recover()
  end
  self.lost = nil
  if not lost.is_list then
    self:took(lost, decided)
    return decided, #decided
  elseif count > 0 then
    lost.edits = vim.list_slice(lost.edits, 1, count)
    self:took(lost, { decided })
  end
  return { decided }, count
end

---Finds out whether the edits were made that had no reply.
---@private
---@return legacy.Splice[]
---@return integer
function Sending:recover()
  local lost, document = self.lost, self.buffer.document
  if not lost then
    return {}, 0
  end
  local made, is_known = nil, true
  if lost.rev == document.rev then
    -- (what was done to another revision by now isn't what was sent)
    made, is_known = document:recover(lost)
  end
  self.lost = nil
  if not is_known then
    self:leave_unknown(lost, made ~= nil)
  end
  if made then
    self:took(lost, { made })
    -- (what is sent next was compared with the text from before)
    document.behind = document.behind or lost == self.unmade
    return { made }, #lost.edits
  end
  self.unmade = is_known and lost.rev == document.rev and lost or nil
  return {}, 0
end

---Keeps the text of an edit of which nobody knows whether it was made, and says so. It isn't sent again, so that it is in the
---document once at most: if it seems not to be made, it leaves the buffer.
---@private
---@param lost legacy.Lost
---@param is_made boolean
function Sending:leave_unknown(lost, is_made)
  local texts, buffer = {}, self.buffer
  for _, edit in ipairs(lost.edits) do
    table.insert(texts, 1, edit.text)
  end
  if not is_made then
    local sent, lines = mirrors.apply_edits(buffer.mirror.lines, lost.edits), buffer:lines()
    self:put_back(sent, lines)
  end
  local text = table.concat(texts, '\n')
  local path = text ~= '' and journals.keep_text(text)
  local where = path and ('; its text is in %s'):format(vim.fn.fnamemodify(path, ':~')) or ''
  messages.warn('the server ended, and nobody knows whether your last edit was made' .. where)
end

---Makes lines of the document what they are there in the buffer, which has others in their place. What else was typed stays.
---@private
---@param others string[]
---@param lines string[] the buffer's
function Sending:put_back(others, lines)
  local buffer = self.buffer
  local mine = diff.edits(others, lines, nil, false)
  local theirs = diff.edits(others, buffer.mirror.lines, nil, false)
  buffer:show_lines(mirrors.apply_edits(lines, (merge.move_edits(others, theirs, mine, lines))))
  buffer.sharing.undoing:retire()
  buffer:without_undo(function() end)
  buffer.aligned = false
end

---The edits that are sent together, starting at one.
---@private
---@param edits legacy.Edit[]
---@param first integer
---@param is_list boolean whether as a list
---@return legacy.Lost
function Sending:batch(edits, first, is_list)
  local buffer = self.buffer
  local most = is_list and self.most or self.window
  if not buffer.mirror:plain() or not is_list and buffer.document.shared then
    -- Where CRs end lines within rows, a place's line depends on the changes before it. And after one that another editor
    -- preceded, the revisions of the next ones could be right again, though the text isn't.
    most = 1
  end
  local document = buffer.document
  local lost, size = { edits = {}, changes = {}, life = document.life, rev = document.rev, is_list = false }, 0
  for i = first, math.min(first + most - 1, #edits) do
    size = size + #edits[i].text
    if i > first and size > self:longest() then
      break
    end
    lost.edits[#lost.edits + 1] = edits[i]
    lost.changes[#lost.changes + 1] = buffer.mirror:command(edits[i])
  end
  lost.is_list = is_list and #lost.edits > 1
  return lost
end

---The most bytes of text that one command takes: JSON makes up to six bytes of one.
---@private
---@return integer
function Sending:longest()
  return math.max(math.floor(self.buffer.settings.part / 6), 8)
end

---The edits starting at one, as those of a list that was refused.
---@param edits legacy.Edit[]
---@param first integer
---@param reply table
---@return legacy.Refused[]
local function rest_of(edits, first, reply)
  return vim.tbl_map(function(edit)
    return { edit = edit, reply = reply }
  end, vim.list_slice(edits, first))
end

---Sends edits, many as lists, and after a list that is refused one by one. If one has what the encoding lacks, all after it
---are left.
---@private
---@param edits legacy.Edit[] that of the last place first
---@param is_list boolean whether as lists
---@return legacy.Refused[]
function Sending:send_edits(edits, is_list)
  local refused, first, tries = {}, 1, TRIES
  edits = in_parts(edits, self:longest())
  while first <= #edits do
    local lost = self:batch(edits, first, is_list)
    local decided, count = self:change(lost)
    for i, reply in ipairs(decided) do
      if reply.fault and not lost.is_list then
        refused[#refused + 1] = { edit = lost.edits[i], reply = reply }
      end
    end
    if self.buffer.document.behind then
      break
    end
    if lost.is_list and decided[1] and decided[1].fault == 'Unencodable' then
      return vim.list_extend(refused, rest_of(edits, first, decided[1]))
    end
    is_list = is_list and not (lost.is_list and decided[1] and decided[1].fault)
    self.window = #refused == 0 and math.min(self.window * 2, MOST_IN_FLIGHT) or 1
    first, tries = first + count, (count > 0 or decided[1]) and TRIES or tries - 1
    if tries == 0 then
      error('legacy: the program ends again and again', 0)
    end
    task.breathe()
  end
  return refused
end

---Sends edits without what the encoding lacks; finds that out if some of it isn't known yet.
---@private
---@param edits legacy.Edit[]
---@return legacy.Refused[]|nil those that are refused for other reasons; nil where more is known now
function Sending:send_known(edits)
  local refused = self:send_edits(self.lacking:filter_edits(edits), true)
  local texts, others = {}, {}
  for _, it in ipairs(refused) do
    local list = it.reply.fault == 'Unencodable' and texts or others
    list[#list + 1] = it.reply.fault == 'Unencodable' and it.edit.text or it
  end
  if #texts == 0 or self.buffer.document.behind then
    return others
  elseif not self.lacking:learn(texts) then
    return self:send_edits(self.lacking:filter_edits(edits), false)
  end
end

---What can't be divided, or wouldn't fit by parts either.
local WHOLE = { OutOfMemory = true, NoEncoder = true, BadJson = true }

---Where a text ends that was put in.
---@param edit legacy.Edit
---@return integer
---@return integer
local function end_of(edit)
  local row, last = edit.row, 0
  for at in edit.text:gmatch('\n()') do
    row, last = row + 1, at - 1
  end
  return row, last == 0 and edit.column + #edit.text or #edit.text - last
end

---The first half of a text, in whole characters, and the second.
---@param text string
---@return string
---@return string
local function halves(text)
  local at = math.ceil(#text / 2)
  while at < #text and text:byte(at + 1) >= 128 and text:byte(at + 1) < 192 do
    at = at + 1
  end
  return text:sub(1, at), text:sub(at + 1)
end

---Sends of an edit's text what the document can have.
---@private
---@param edit legacy.Edit
---@param left { parts: integer } how many parts may be tried
---@return legacy.Refused[]
---@return integer|nil row where what was put in ends; nil where nothing was
---@return integer|nil column
function Sending:send_halves(edit, left)
  left.parts = left.parts - 1
  local refused = self:send_edits({ edit }, false)
  if #refused == 0 and not self.buffer.document.behind then
    return {}, end_of(edit)
  end
  local first, second = halves(edit.text)
  if second == '' or left.parts < 2 or self.buffer.document.behind or WHOLE[refused[1].reply.fault] then
    return refused
  end
  local row, column
  refused, row, column = self:send_halves(vim.tbl_extend('force', edit, { text = first }), left)
  local rest = vim.tbl_extend('force', edit, { text = second })
  if row then
    rest.row, rest.column, rest.end_row, rest.end_column = row, column, row, column
  end
  local others, to_row, to_column = self:send_halves(rest, left)
  vim.list_extend(refused, others)
  return refused, to_row or row, to_column or column
end

---Sends what differs, in small pieces first and then, if one is refused, in larger ones: the encoding may keep the whole but
---not a step in between. At last sends those parts of the refused texts that aren't refused by themselves.
---@private
---@param wanted string[] the lines
---@param hint { row: integer, column: integer }|nil where the only edit began, if that is known
---@param aligned boolean
---@return legacy.Refused[]
function Sending:send(wanted, hint, aligned)
  local refused, mirror = {}, self.buffer.mirror
  for _, coarse in ipairs({ false, true }) do
    repeat
      local edits = diff.edits(mirror.lines, wanted, hint, coarse, aligned)
      if not coarse and #edits > 0 and #edits < MOST_HELD then
        self.buffer:hold(edits)
      end
      refused = self:send_known(edits)
      hint = nil
    until refused
    if #refused == 0 or self.buffer.document.behind then
      return refused
    end
  end
  local edits = self.lacking:filter_edits(diff.edits(mirror.lines, wanted, nil, false, aligned))
  refused = {}
  for _, edit in ipairs(edits) do
    vim.list_extend(refused, (self:send_halves(edit, { parts = MOST_PARTS })))
    if self.buffer.document.behind then
      break
    end
  end
  return refused
end

---The lines without bytes that aren't text. Beginnings of characters among these wait for their rest.
---@private
---@param lines string[]
---@param aligned boolean
---@return string[]
---@return boolean whether there are such bytes
function Sending:complete(lines, aligned)
  local old, whole = self.buffer.mirror.lines, nil
  local is_aligned = aligned and #old == #lines
  local group = not is_aligned and diff.group(old, lines, nil) or nil
  local first, last = group and group.new_row + 1 or 1, group and group.new_row + group.new_count or 0
  for row = is_aligned and 1 or first, is_aligned and #lines or last do
    local line = lines[row]
    local list = line ~= old[row] and line:find('[\128-\255]') and utf8.find_broken(line) or {}
    if #list > 0 then
      whole = whole or vim.list_slice(lines)
      whole[row] = utf8.without(line, list)
    end
  end
  return whole or lines, whole ~= nil
end

---Looks again for the rest of a character that has begun.
---@private
function Sending:wait_for_rest()
  if self.is_waiting then
    return
  end
  self.is_waiting = true
  local buffer = self.buffer
  local function look(tick)
    vim.defer_fn(function()
      if buffer.closed or not api.nvim_buf_is_loaded(buffer.number) then
        return
      end
      local now = api.nvim_buf_get_changedtick(buffer.number)
      if now ~= tick then
        look(now)
        return
      end
      self.is_waiting, self.has_waited, buffer.dirty = false, true, true
      buffer:plan()
    end, Sending.PATIENCE)
  end
  look(api.nvim_buf_get_changedtick(buffer.number))
end

---Sends what was edited up to now.
---@private
---@param is_last boolean whether what can't be sent is looked at now, though it may be a beginning
---@return boolean whether there is no more to send
function Sending:round(is_last)
  local buffer = self.buffer
  self:keep_format()
  if buffer.document.behind or not self:follow_undo() then
    self:give_way()
    return buffer.document.behind
  end
  local hint, aligned, lines = buffer.hint, buffer.aligned, buffer:lines()
  buffer.dirty, buffer.hint, buffer.aligned = false, nil, true
  self.lacking.is_holding = false
  local wanted, is_broken = self:complete(lines, aligned)
  local refused = self:send(wanted, hint, aligned)
  local has_all = #refused == 0 and not is_broken and not self.lacking.is_holding
  if buffer.document.behind then
    buffer.aligned = buffer.aligned and aligned
    self:give_way()
    return buffer.document.behind
  elseif has_all then
    buffer.refusals = {}
    return false
  end
  buffer.aligned = buffer.aligned and aligned
  if not buffer.dirty then
    self:settle(Leaving.new(buffer, self.lacking, lines, refused, not is_last and not self.has_waited))
    self.has_waited = nil
    return true
  end
  return false
end

---Marks what the document can't have, or takes it back.
---@private
---@param leaving legacy.Leaving
function Sending:settle(leaving)
  local buffer = self.buffer
  if buffer.settings.refused == 'mark' then
    buffer.refusals = leaving:refusals()
  else
    buffer.refusals = {}
    leaving:take_back()
  end
  buffer.dirty = #buffer.refusals > 0 or leaving.is_waiting
  if leaving.is_waiting then
    self:wait_for_rest()
  end
end

---Sends what was edited, until there is no more. What is refused is taken back, or marked.
---@param is_last boolean|nil whether nothing waits for the rest of a character
function Sending:sync(is_last)
  local buffer = self.buffer
  if not buffer.dirty then
    return
  end
  local done, why = pcall(function()
    self:recover()
    local tries, is_over = TRIES, false
    repeat
      is_over = self:round(is_last or false)
      tries = tries - 1
    until is_over or not buffer.dirty or tries == 0
  end)
  if not done then
    buffer.dirty, buffer.aligned = true, false
    error(why, 0)
  end
  buffer:release()
  buffer:show_soon()
end

---Keeps what was typed while the program is silent.
function Sending:hold()
  local buffer = self.buffer
  local tick = api.nvim_buf_get_changedtick(buffer.number)
  if buffer.dirty and tick ~= self.held then
    self.held = tick
    buffer:hold(diff.edits(buffer.mirror.lines, buffer:lines(), nil, true, buffer.aligned))
  end
end

return Sending

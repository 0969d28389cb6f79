---What a buffer does whose document other editors may have too: it shows what they edit, and says who is there.
local Undoing = require('legacy.undoing')
local arrivals = require('legacy.arrivals')
local diff = require('legacy.diff')
local file = require('legacy.file')
local merge = require('legacy.merge')
local messages = require('legacy.messages')
local mirrors = require('legacy.mirror')
local places = require('legacy.places')
local presence = require('legacy.presence')
local server = require('legacy.server')
local task = require('legacy.task')

local api = vim.api

---@class legacy.Sharing
---@field private buffer legacy.Buffer
---@field undoing legacy.Undoing
---@field presence legacy.Presence
---@field private timer table
---@field private looks integer
---@field private still integer how many of them there were since somebody edited
---@field private said integer how many others there were when that was said
---@field private asked legacy.Connection|nil where a question is under way
---@field private stamp string|nil what the file was when it was looked at
---@field private there string|nil its bytes then
---@field private suspect string|nil what it was when nobody had said that he wrote it
---@field private autocmds integer[]
---@field private trouble string|nil what went wrong last
local Sharing = {}
Sharing.__index = Sharing

---Milliseconds between two looks at the document, and how many of them there are to one at the file and at who is there. After so
---many looks at which nobody had edited they are as rare: a record has each.
local LOOK, SELDOM, STILL = 100, 10, 600

---How many looks there are to one at the bytes.
Sharing.COMPARE = 50

---What is left to be done for buffers that are gone, since nothing could be waited for then.
---@type (fun())[]
local left = {}

local finishing = task.turns()

---Does what is left to be done.
function Sharing.finish()
  finishing:take(function()
    local calls = left
    left = {}
    for _, call in ipairs(calls) do
      pcall(call)
    end
  end)
end

---@param buffer legacy.Buffer
---@return legacy.Sharing
function Sharing.new(buffer)
  local self = setmetatable({
    buffer = buffer,
    presence = presence.new(buffer.document.name, buffer.number),
    looks = 0,
    still = 0,
    stamp = presence.stamp(buffer.path),
    autocmds = {},
  }, Sharing)
  self.undoing = Undoing.new(self, buffer)
  local document = buffer.document
  local function enter()
    self.presence:enter(document.connection, document.own)
  end
  enter()
  document.on_joined = enter
  -- (edits that no editor has written are said elsewhere)
  self.said = buffer:is_unwritten() and self.presence.others or 0
  vim.b[buffer.number].legacy_others = self.said
  self:say_who()
  self:map()
  self:begin()
  return self
end

---Says what went wrong, once.
---@private
---@param why string|nil
function Sharing:say(why)
  if why and why ~= self.trouble then
    messages.warn((tostring(why):gsub('^legacy: ', '')))
  end
  self.trouble = why
end

---The keys of undo and redo.
local KEYS = { u = 'undo', ['<C-R>'] = 'redo' }

---Undo and redo lead back to one's own edits, even after those of others.
---@private
function Sharing:map()
  for key, which in pairs(KEYS) do
    vim.keymap.set('n', key, function()
      for _ = 1, vim.v.count1 do
        local done, why = pcall(self.undoing.step, self.undoing, which)
        self:say(not done and why or nil)
      end
    end, { buffer = self.buffer.number, desc = 'legacy: ' .. which })
  end
end

---Looks as long as the buffer is shown.
---@private
function Sharing:begin()
  self.timer = (vim.uv or vim.loop).new_timer()
  local function on(events, call)
    self.autocmds[#self.autocmds + 1] = api.nvim_create_autocmd(events, {
      callback = function()
        call(self)
      end,
    })
  end
  on({ 'BufEnter', 'BufWinEnter', 'WinEnter', 'TabEnter' }, self.wake)
  on({ 'BufWinLeave', 'WinClosed' }, function()
    -- The window is still there.
    vim.schedule(function()
      self:wake()
    end)
  end)
  on({ 'ModeChanged' }, function()
    if self.undoing.mixed then
      self:soon(self.rest)
    end
  end)
  self:wake()
end

---Has Neovim's undo tree forget what is mixed up in it, once text was inserted.
---@private
function Sharing:rest()
  self:in_turn(function()
    self.undoing:rest()
  end)
end

---Begins to look if the buffer is shown, and otherwise stops.
---@private
function Sharing:wake()
  if self.buffer.closed then
    return
  end
  local shown = self:is_shown()
  if shown and not self.timer:is_active() then
    self.timer:start(0, LOOK, function()
      self:tick()
    end)
  elseif not shown then
    self.timer:stop()
  end
end

---@private
---@return boolean
function Sharing:is_shown()
  for _, window in ipairs(api.nvim_tabpage_list_wins(0)) do
    if api.nvim_win_get_buf(window) == self.buffer.number then
      return true
    end
  end
  return false
end

---Calls as a task, where all of Neovim can be used.
---@private
---@param call fun(self: legacy.Sharing)
---@param over fun()|nil is called at its end
function Sharing:soon(call, over)
  task.soon(function()
    task.start(function()
      if not self.buffer.closed and api.nvim_buf_is_loaded(self.buffer.number) then
        call(self)
      end
    end, function(ended)
      if over then
        over()
      end
      self:say(not ended.is_done and ended.result or nil)
    end)
  end)
end

---Calls once no other task works on the document.
---@private
---@param call fun(self: legacy.Sharing)
function Sharing:in_turn(call)
  self.buffer.turns:take(function()
    if not self.buffer.closed then
      call(self)
    end
  end)
end

---Asks what is new, seldom if no other editor has the file open. As long as nothing is, Neovim itself has nothing to do:
---otherwise |CursorHold| would never come.
---@private
function Sharing:tick()
  local connection = self.buffer.document.connection
  self.looks = self.looks + 1
  if self.buffer.closed then
    return
  elseif connection.ended then
    if connection.path and self.looks % SELDOM == 0 then
      server.find(connection.path, function()
        self:soon(self.revive)
      end)
    end
    return
  end
  self.still = self.buffer.dirty and 0 or self.still + 1
  local is_due = self.looks % SELDOM == 0 or self.presence.others > 0 and self.still < STILL
  if self.asked ~= connection and is_due then
    self.asked = connection
    self.buffer.document:watch(function(moved)
      self.still = moved and 0 or self.still
      local function over()
        self.asked = nil
      end
      if moved then
        self:soon(self.look, over)
      else
        over()
      end
    end)
  end
  if self.looks % SELDOM == 0 then
    self:tick_seldom(connection)
  end
  if self.looks % Sharing.COMPARE == 0 and not self.buffer.document.behind then
    self.buffer.document:compare(function()
      self:soon(self.doubt)
    end)
  end
end

---Reads the document anew, of whose name another one is open.
---@private
function Sharing:doubt()
  self:in_turn(function()
    self.buffer.document:doubt()
    self:look_alone()
  end)
end

---@private
---@param connection legacy.Connection
function Sharing:tick_seldom(connection)
  self.presence:watch(connection, function()
    self:soon(self.look_who)
  end)
  self.presence:count()
  if self.presence.others ~= self.said then
    self:soon(self.say_who)
  end
  if presence.stamp(self.buffer.path) ~= self.stamp then
    self:soon(self.notice_file)
  end
end

---Goes on at a server that another editor has started.
---@private
function Sharing:revive()
  self:in_turn(function()
    if self.buffer.document:revive() then
      self:look_alone()
    end
  end)
end

---@private
function Sharing:look_who()
  if not self.buffer.document.connection.ended then
    self.presence:look(self.buffer.document.connection)
    self:say_who()
  end
end

---Says how many others there are, if the number has changed.
---@private
function Sharing:say_who()
  local others = self.presence.others
  if others ~= self.said then
    self.said = others
    vim.b[self.buffer.number].legacy_others = others
    messages.tell(messages.others(others))
  end
end

---Whether others' text can come in now: not while Neovim waits for the rest of a command, for a choice among completions, or
---for what replaces text.
---@private
---@return boolean
function Sharing:can_change()
  local mode = api.nvim_get_mode()
  if api.nvim_get_current_buf() ~= self.buffer.number then
    return true
  end
  local waits = mode.blocking or mode.mode:find('^n?[crRsS\19]') or mode.mode:find('^no') or mode.mode:find('^i[cx]')
  return not waits and vim.fn.pumvisible() == 0
end

---Takes in what other editors did, and sends what was edited here meanwhile; waits for that, or for so long.
---@param limit integer|nil milliseconds
function Sharing:look(limit)
  task.await(function()
    self:in_turn(self.look_alone)
  end, type(limit) == 'number' and limit or nil)
end

---Does what `look` does, in a task whose turn it is. A program that ended is not started for it.
function Sharing:look_alone()
  local buffer = self.buffer
  if buffer.document.connection.ended or not self:can_change() then
    return
  end
  self.undoing:rest()
  buffer.sending:sync()
  self:take_in()
  buffer.sending:sync()
end

---Calls what takes in an arrival. If that fails, all is read again at the next look.
---@param call fun()
function Sharing:taking(call)
  local done, why = pcall(call)
  if not done then
    self.buffer.document.behind, self.buffer.document.unsure = true, true
    error(why, 0)
  end
end

---Takes in what other editors did: their text comes into the buffer, and what was edited here stays, to be sent.
function Sharing:take_in()
  local buffer = self.buffer
  local document = buffer.document
  if document.connection.ended or not self:can_change() then
    buffer.dirty = true
    return
  end
  self:taking(function()
    local arrival = arrivals.take(document, buffer.mirror, document.rev, document.bytes)
    if arrival then
      self.undoing:retire()
      self.undoing:arrive(arrival.splice)
      self:show(arrival)
    end
  end)
end

---The lines that arrive, as edits of the mirror's, and the mirror that has them.
---@param mirror legacy.Mirror
---@param arrival legacy.Arrival
---@return legacy.Edit[] that of the last place first
---@return legacy.Mirror
local function edits_of_arrival(mirror, arrival)
  local rows = arrival.rows
  if not rows then
    local now = mirrors.new(arrival.text)
    return diff.edits(mirror.lines, now.lines, nil, false), now
  end
  local hint = { row = arrival.hint.row - rows.row, column = arrival.hint.column }
  local edits = diff.edits(rows.lines_gone, rows.lines_put, hint, false)
  for _, edit in ipairs(edits) do
    edit.row, edit.end_row = edit.row + rows.row, edit.end_row + rows.row
  end
  return edits, mirror
end

---Edits of lines like those of a mirror, as edits of a buffer that shows them.
---@param number integer
---@param lines string[]
---@param edits legacy.Edit[] that of the last place first
---@param merged string[] what they make of the lines
---@return legacy.Edit[]
local function edits_of_display(number, lines, edits, merged)
  local display, ended = mirrors.display(merged)
  local _, was_ended = mirrors.display(lines)
  if ended == was_ended and (#edits == 0 or edits[1].end_row < api.nvim_buf_line_count(number)) then
    return edits
  end
  return diff.edits(api.nvim_buf_get_lines(number, 0, -1, true), display, nil, false)
end

---Keeps the lines that a document had and another one in its place hasn't.
---@param old string[]
---@param new string[]
local function keep(old, new)
  local group = diff.group(old, new, nil)
  if group and group.count > 0 then
    vim.fn.setreg('"', vim.list_slice(old, group.row + 1, group.row + group.count), 'l')
    messages.warn('another editor opened it anew; lines that differed are in register "')
  end
end

---Puts what arrived into the buffer.
---@param arrival legacy.Arrival
---@return legacy.Edit[] of the buffer
function Sharing:show(arrival)
  local buffer = self.buffer
  local number, lines, old = buffer.number, buffer:lines(), buffer.mirror
  local theirs, mirror = edits_of_arrival(old, arrival)
  local mine = diff.edits(old.lines, lines, nil, false, buffer.aligned)
  local edits, met = merge.move_edits(old.lines, theirs, mine, lines)
  local merged = mirrors.apply_edits(lines, edits)
  edits = edits_of_display(number, lines, edits, merged)
  if arrival.is_other then
    keep(old.lines, mirror.lines)
  end
  if arrival.rows then
    mirror:replace(arrival.rows)
  end
  buffer.mirror = mirror
  self:change(edits, select(2, mirrors.display(merged)))
  buffer.dirty, buffer.aligned = #mine > 0, buffer.aligned or #mine == 0
  buffer:was_written(buffer.document.bytes == self.there and self.there or buffer.disk)
  buffer:keep()
  if met then
    messages.warn('another editor changed the same text; what both put in is there')
  end
  buffer:show_soon()
  return edits
end

---Edits the buffer as others did.
---@private
---@param edits legacy.Edit[]
---@param ended boolean whether the last line has a line end
function Sharing:change(edits, ended)
  local buffer = self.buffer
  local format = buffer.mirror.line_end == '\r\n' and 'dos' or 'unix'
  local is_inserting = buffer:is_inserting()
  self.undoing:change(function(options)
    if options.fileformat ~= format then
      options.fileformat = format
    end
    places.edit(buffer.number, edits, is_inserting)
    if #buffer.document.bytes > 0 and options.endofline ~= ended then
      options.endofline = ended
    end
  end)
end

---Notices that another editor has written what the document has, or that the file was changed in another way.
---@private
function Sharing:notice_file()
  local buffer = self.buffer
  local stamp = presence.stamp(buffer.path)
  if stamp == self.stamp then
    return
  end
  local read, there = pcall(file.read, buffer.path)
  if not read then
    return
  elseif there == buffer.document.bytes or there == buffer.disk or stamp == self.presence.written then
    buffer:was_written(there)
  elseif stamp ~= self.suspect then
    -- (the editor that wrote it may not have said so yet)
    self.suspect = stamp
    return
  else
    messages.warn('the file has changed: :edit! reads it anew, :write! overwrites it')
  end
  self.stamp, self.there = stamp, there
end

---Whether the file is as an editor of this document wrote it.
---@return boolean
function Sharing:is_written()
  self.presence:look(self.buffer.document.connection)
  return self.presence.written ~= nil and presence.stamp(self.buffer.path) == self.presence.written
end

---Says that the file was written here.
function Sharing:announce_write()
  self.stamp = presence.stamp(self.buffer.path)
  if self.stamp then
    self.presence:write(self.buffer.document.connection, self.stamp)
  end
end

---Leaves the document; the last one that has it open closes it. It may be called when nothing can be waited for.
function Sharing:close()
  self.timer:stop()
  self.timer:close()
  for _, autocmd in ipairs(self.autocmds) do
    pcall(api.nvim_del_autocmd, autocmd)
  end
  for key in pairs(KEYS) do
    pcall(vim.keymap.del, 'n', key, { buffer = self.buffer.number })
  end
  local document = self.buffer.document
  left[#left + 1] = function()
    if not document.connection.ended then
      self.presence:leave(document.connection)
      if self.presence.others == 0 and self.presence.is_ours then
        document:close()
      end
    end
  end
  task.soon(function()
    task.start(Sharing.finish)
  end)
end

return Sharing

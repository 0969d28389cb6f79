---A buffer that shows a document: it is read, each edit goes to the program, and it is written.
local Document = require('legacy.document')
local History = require('legacy.history')
local Journal = require('legacy.journal')
local Quiet = require('legacy.quiet')
local Sending = require('legacy.sending')
local Sharing = require('legacy.sharing')
local abandoned = require('legacy.abandoned')
local config = require('legacy.config')
local diagnostics = require('legacy.diagnostics')
local diff = require('legacy.diff')
local file = require('legacy.file')
local messages = require('legacy.messages')
local mirrors = require('legacy.mirror')
local places = require('legacy.places')
local splicing = require('legacy.splices')
local task = require('legacy.task')

local api = vim.api
local uv = vim.uv or vim.loop

---@class legacy.Buffer
---@field number integer
---@field name string what it was called as it was read
---@field document legacy.Document
---@field mirror legacy.Mirror the text that the document has
---@field path string where it is written
---@field refusals legacy.Refusal[] what the buffer has and the document can't
---@field history legacy.History
---@field sharing legacy.Sharing|nil where other editors may have the document too
---@field disk string|nil the file's bytes when it was last read or written
---@field dirty boolean whether the buffer was edited since the last look
---@field aligned boolean whether all since the mirror's text was edited within lines, so that each has its row in both
---@field changing boolean whether the plugin itself is changing it
---@field turns legacy.Turns of what works on the document, one at a time
---@field sending legacy.Sending
---@field quiet legacy.Quiet
---@field journal legacy.Journal|nil what isn't saved, where that is kept
---@field private origin string the document's bytes when it was read or saved
---@field closed boolean whether the buffer shows the document no more
---@field private settings legacy.Settings
---@field private planned boolean
---@field private changes integer of lines since Neovim had a turn
---@field private edits integer how often the damaged places were to be shown anew
---@field private awaited boolean|nil whether they will be
---@field hint { row: integer, column: integer }|nil where the only edit since the last look began
local Buffer = {}
Buffer.__index = Buffer

---How often an edit is tried again after other editors were first.
local TRIES = 10

---How many looks at a silent program are enough for who waits for a file to be written, and for how many milliseconds it is
---waited at least.
local SILENCE, LEAST = 10, 1000

---How many changes of lines at once are many.
local MANY = 10

---Milliseconds until damaged places are shown again, and how often that is put off while edits come.
local REST, LONGEST = 100, 5

---Opens a document. If its label is unknown, tries the label of the name that editors use.
---@param connect fun(quietly: boolean|nil): legacy.Connection|nil
---@param label string
---@param path string
---@param bytes string
---@param settings legacy.Settings
---@return legacy.Document
local function open_document(connect, label, path, bytes, settings)
  local name = settings.socket and vim.fn.sha256(path) or nil
  local document, refusal = Document.open(connect, label, bytes, settings.part, name)
  local alias = config.aliases[label:lower()]
  if not document and refusal.fault == 'UnknownLabel' and alias then
    document, refusal = Document.open(connect, alias, bytes, settings.part, name)
  end
  if not document and refusal.fault == 'TooManyDocuments' and name and abandoned.close(connect()) > 0 then
    document, refusal = Document.open(connect, alias or label, bytes, settings.part, name)
  end
  if not document then
    error('legacy: ' .. messages.opening(refusal, label, #bytes, settings), 0)
  end
  return document
end

---Makes a document's bytes those of its file, whatever others did.
---@param document legacy.Document
---@param bytes string
local function renew(document, bytes)
  for _ = 1, TRIES do
    if document.bytes == bytes or document:splice({ splicing.between(document.bytes, bytes) }) then
      return
    end
    document:refresh()
  end
end

---Reads a file into a buffer.
---@param number integer
---@param label string
---@param path string
---@param connect fun(quietly: boolean|nil): legacy.Connection|nil
---@param anew boolean whether what others did to the document is dropped
---@return legacy.Buffer
function Buffer.read(number, label, path, connect, anew)
  local settings = config.get()
  path = file.resolve_links(path)
  local disk = file.read(path)
  local document = open_document(connect, label, path, disk or '', settings)
  if anew then
    renew(document, disk or '')
  end
  local read, text = pcall(document.text, document)
  if not read then
    document:close()
    error(text, 0)
  end
  local self = setmetatable({
    number = number,
    document = document,
    mirror = mirrors.new(text),
    path = path,
    disk = disk,
    settings = settings,
    refusals = {},
    dirty = false,
    aligned = true,
    changing = false,
    changes = 0,
    turns = task.turns(),
    planned = false,
    closed = false,
    edits = 0,
  }, Buffer)
  self.sending, self.quiet = Sending.new(self), Quiet.new(self)
  self.journal, self.origin = settings.keep and Journal.new(path, document.label, number) or nil, document.bytes
  self:fill()
  self:attach()
  self:draw()
  if document.shared then
    self.sharing = Sharing.new(self)
    self:say_unwritten()
  end
  return self
end

---Says where a document that others have opened isn't as its file.
---@private
function Buffer:say_unwritten()
  if self:is_unwritten() and self.sharing.presence.others == 0 then
    -- What the file was when they were made isn't known.
    self.disk = nil
    messages.warn('it has edits that nobody wrote: :write! writes them, :edit! drops them')
  elseif self:is_unwritten() then
    messages.warn('another editor made edits that it has not written')
  end
end

---Puts the text into the buffer, with no undo of what was there.
---@private
function Buffer:fill()
  local lines, ended = self.mirror:display()
  self:without_undo(function(options)
    options.buftype, options.swapfile, options.undofile = 'acwrite', false, false
    options.fileformat = self.mirror.line_end == '\r\n' and 'dos' or 'unix'
    -- What is typed into an empty text gets a line end, as in a new file.
    options.fixendofline, options.endofline = false, ended or #self.document.bytes == 0
    api.nvim_buf_set_lines(self.number, 0, -1, true, lines)
  end)
  vim.bo[self.number].modified = self:is_unwritten()
end

---@return table what `undotree()` returns
function Buffer:undo_tree()
  return api.nvim_buf_call(self.number, vim.fn.undotree)
end

---Looks at the buffer soon after each edit. Nothing can be changed while Neovim reports it.
---@private
function Buffer:attach()
  api.nvim_buf_attach(self.number, false, {
    on_bytes = function(_, _, _, row, column, _, rows, _, _, new_rows)
      if self.closed then
        return true
      end
      if not self.changing then
        self.hint = not self.dirty and { row = row, column = column } or nil
        self.aligned = self.aligned and rows == 0 and new_rows == 0
        self.dirty = true
      end
    end,
    on_lines = function(_, _, _, _, last, new_last)
      if self.closed then
        return true
      end
      self:count_change()
      if not self.changing then
        self.aligned = self.aligned and last == new_last
        self.dirty = true
        self:plan()
      end
    end,
    on_detach = function()
      self:close()
    end,
  })
end

---Counts changes of lines. Where there are many at once damaged places are taken from the screen until all are made.
---@private
function Buffer:count_change()
  self.changes = self.changes + 1
  if self.changes == 1 then
    task.soon(function()
      self.changes = 0
    end)
  elseif self.changes == MANY then
    diagnostics.hide(self.number)
    self:show_soon()
  end
end

---Calls as a task, once no other one works on the document; says what goes wrong.
---@param call fun()
---@param over fun()|nil is called at its end
function Buffer:start(call, over)
  task.start(function()
    self.turns:take(function()
      if not self.closed and api.nvim_buf_is_loaded(self.number) then
        call()
      end
    end)
  end, function(ended)
    if over then
      over()
    end
    if not ended.is_done then
      messages.warn((tostring(ended.result):gsub('^legacy: ', '')))
    end
  end)
end

---Sends soon what was edited.
function Buffer:plan()
  if self.planned then
    return
  end
  local function over()
    self.planned = false
  end
  self.planned = true
  task.soon(function()
    self:start(function()
      over()
      self.sending:sync()
    end, over)
  end)
end

---Brings the document in step with the buffer, and waits for that.
function Buffer:sync()
  task.await(function()
    self.turns:take(function()
      self.sending:sync()
    end)
  end)
end

function Buffer:close()
  if not self.closed then
    self.closed = true
    if self.journal and vim.v.dying == 0 then
      self.journal:remove()
    end
    if self.sharing then
      self.sharing:close()
    else
      self.document:close()
    end
  end
end

---Keeps what isn't saved, in another file; where all is, nothing.
---@param splice legacy.Splice|nil what was edited last, if that is known
function Buffer:keep(splice)
  if self.journal and not self.closed then
    self.journal:note(self.origin, self.document.bytes, splice)
  end
end

---Keeps text that isn't in the document yet.
---@param edits legacy.Edit[]
function Buffer:hold(edits)
  if self.journal and not self.closed then
    self.journal:hold(self.document.bytes, edits)
  end
end

---Keeps nothing any more if all is saved.
function Buffer:release()
  if self.journal and not self.dirty and #self.refusals == 0 and not self:is_unwritten() then
    self.journal:remove()
    self.origin = self.document.bytes
  end
end

---Whether the document has other bytes than the file, as it was last read or written.
---@return boolean
function Buffer:is_unwritten()
  return self.document.bytes ~= (self.disk or '')
end

---The file has these bytes, as an editor of the document has read or written them.
---@param there string|nil
function Buffer:was_written(there)
  self.disk = there
  vim.bo[self.number].modified = self.dirty or #self.refusals > 0 or self:is_unwritten()
  self:release()
end

---The buffer's text as lines, like those of a mirror. One empty line is an empty text where Neovim says so, or where
---the text is empty already: after undo Neovim has forgotten it.
---@return string[]
function Buffer:lines()
  local lines = api.nvim_buf_get_lines(self.number, 0, -1, true)
  local empty = #lines == 1
    and lines[1] == ''
    and (vim.deep_equal(self.mirror.lines, lines) or api.nvim_buf_call(self.number, vim.fn.wordcount).bytes == 0)
  if vim.bo[self.number].endofline and not empty then
    lines[#lines + 1] = ''
  end
  return lines
end

---Calls what changes the buffer and isn't an edit. It waits for nothing.
---@param call fun()
function Buffer:by_itself(call)
  local before = self.changing
  self.changing = true
  local done, why = pcall(call)
  self.changing = before
  if not done then
    error(why, 0)
  end
end

---Makes the buffer's text these lines, where they differ and in the same undo step. Cursors stay at their characters.
---@param lines string[] like those of a mirror
function Buffer:show_lines(lines)
  local shown, ended = mirrors.display(lines)
  local edits = diff.edits(api.nvim_buf_get_lines(self.number, 0, -1, true), shown, nil, false)
  self:by_itself(function()
    if #edits > 0 then
      api.nvim_buf_call(self.number, function()
        pcall(vim.cmd, 'silent! undojoin')
      end)
      places.edit(self.number, edits, self:is_inserting())
    end
    if #self.document.bytes > 0 then
      vim.bo[self.number].endofline = ended
    end
  end)
end

---Whether text is being inserted.
---@return boolean
function Buffer:is_inserting()
  return api.nvim_get_current_buf() == self.number and api.nvim_get_mode().mode:find('^i') ~= nil
end

---Changes the buffer with no way back: undo forgets what was before. It may be one that its user can't modify.
---@param change fun(options: table)
function Buffer:without_undo(change)
  local options = vim.bo[self.number]
  local levels, modifiable = options.undolevels, options.modifiable
  options.undolevels, options.modifiable = -1, true
  local done, why = pcall(self.by_itself, self, function()
    change(options)
  end)
  -- Neovim forgets at an edit, even if it changes nothing.
  self:by_itself(function()
    api.nvim_buf_set_lines(self.number, 0, 0, true, {})
  end)
  options.undolevels, options.modifiable = levels, modifiable
  self.history = History.new(self:undo_tree().seq_cur)
  if not done then
    error(why, 0)
  end
end

---Shows the damaged places, and waits for that.
function Buffer:show()
  task.await(function()
    self.turns:take(function()
      self:draw()
    end)
  end)
end

---@private
function Buffer:draw()
  local damage, total = self.document:damage(self.settings.marks)
  if not damage or not total then
    return
  elseif self.dirty and #self.refusals == 0 then
    -- The buffer's rows aren't those of the document.
    self:show_soon()
    return
  end
  vim.b[self.number].legacy_encoding = self.document.encoding
  vim.b[self.number].legacy_damaged = total
  diagnostics.set(self.number, damage, self.mirror, self.document.encoding, self.refusals)
end

---Shows the damaged places once edits rest, since each look costs the program time, or once edits have come for long.
function Buffer:show_soon()
  self.edits = self.edits + 1
  if self.awaited then
    return
  end
  self.awaited = true
  local edits, times = self.edits, 0
  local function wait()
    vim.defer_fn(function()
      times = times + 1
      if edits ~= self.edits and times < LONGEST then
        edits = self.edits
        wait()
        return
      end
      self.awaited = false
      -- (a program that ended is not started for it)
      if not self.closed and api.nvim_buf_is_loaded(self.number) and not self.document.connection.ended then
        self:start(function()
          pcall(self.draw, self)
        end)
      end
    end, REST)
  end
  wait()
end

---The document's bytes, once all that was edited here is in it.
---@private
---@param forced boolean
---@return string
function Buffer:settle(forced)
  for _ = 1, self.sharing and TRIES or 1 do
    if self.sharing then
      self.sharing:look_alone()
    end
    -- 'endofline' and 'fileformat' can be set without an edit.
    self.dirty = self.dirty or vim.bo[self.number].modified
    self.sending:sync(true)
    if self.document.behind then
      error("legacy: not written: another editor changed the document, which can't come in now", 0)
    elseif #self.refusals > 0 and not forced then
      error(('legacy: not written: %s (add ! to leave it out)'):format(self.refusals[1].reason), 0)
    end
    local bytes, rev = self.document:source()
    if bytes == self.document.bytes then
      return bytes
    elseif self.sharing and rev == self.document.rev then
      -- It is another document, which another client opened by this name.
      self.document:doubt()
    end
  end
  error("legacy: not written: the program's bytes aren't those that were kept here", 0)
end

---What says when a program has been silent for too long to wait for.
---@private
---@return fun(): string|nil
function Buffer:patience()
  local began = uv.hrtime()
  return function()
    local is_silent = self.document.connection.silence > SILENCE
    if is_silent and uv.hrtime() - began > LEAST * 1000000 then
      return 'legacy: not written: the program gives no reply'
    end
  end
end

---Writes the document's bytes to its file, or to another one.
---@param path string|nil
---@param forced boolean
function Buffer:write(path, forced)
  task.await(function()
    self.turns:take(function()
      self:write_alone(path, forced)
    end)
  end, nil, self:patience())
end

---Raises an error if a file isn't to be written.
---@private
---@param target string
---@param own boolean whether it is the document's own
---@param bytes string
function Buffer:check(target, own, bytes)
  local there = file.read(target)
  local is_known = there == self.disk or self.sharing and (there == bytes or self.sharing:is_written())
  if own and not is_known then
    error('the file has changed since it was read (add ! to overwrite it)', 0)
  elseif not own and there then
    error('the file exists (add ! to overwrite it)', 0)
  elseif there and not uv.fs_access(target, 'W') then
    error('the file is read-only (add ! to overwrite it)', 0)
  end
end

---@private
---@param path string|nil
---@param forced boolean
function Buffer:write_alone(path, forced)
  local bytes = self:settle(forced)
  local target = file.resolve_links(path or self.path)
  local own = not path or target == self.path
  task.check()
  file.write(target, bytes, function()
    if not forced then
      self:check(target, own, bytes)
    end
    task.check()
  end)
  if own then
    self:was_written(bytes)
    if self.sharing then
      self.sharing:announce_write()
    end
  end
end

return Buffer

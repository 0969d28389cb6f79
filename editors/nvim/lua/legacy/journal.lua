---Edits that aren't saved, in a file of its own, so that they survive if this Neovim is killed: the document's bytes before
---the first edit, each splice since then, and text that isn't in the document yet.
local processes = require('legacy.processes')
local splicing = require('legacy.splices')
local state_folder = require('legacy.state_folder')
local task = require('legacy.task')
local uv = vim.uv or vim.loop

local M = {}

---@class legacy.Journal
---@field path string its file
---@field private head table what it is about
---@field private bytes string|nil the document's, as the file leads to them; nil where there is no file
---@field private descriptor integer|nil
---@field private size integer bytes of the file
---@field private waiting string[] what is still to be written
---@field private is_writing boolean
local Journal = {}
Journal.__index = Journal

---The folder of these files, and how large a file may become beside its document.
local FOLDER, ROOM = 'unsaved', 65536

local VERSION = 1

---Makes an empty file in the folder of these files.
---@param path string
---@return integer|nil descriptor nil if it can't be made
local function create(path)
  return state_folder.make(FOLDER) and (uv.fs_open(path, 'w', state_folder.PRIVATE)) or nil
end

---@param path string
---@param text string
---@return boolean whether it is in the file
local function write_whole(path, text)
  local descriptor = create(path)
  if not descriptor then
    return false
  end
  local written = uv.fs_write(descriptor, text, 0)
  uv.fs_close(descriptor)
  return written == #text
end

---Keeps a text of which nobody knows whether it is in its document, in a file that nothing removes.
---@param text string
---@return string|nil path
function M.keep_text(text)
  local path = ('%s/text.%d.%.0f'):format(state_folder.path(FOLDER), vim.fn.getpid(), uv.hrtime())
  return write_whole(path, text) and path or nil
end

---@param path string of the document's file
---@param label string
---@param buffer integer
---@return legacy.Journal
function M.new(path, label, buffer)
  local name = ('%s/%s.%d.%d'):format(state_folder.path(FOLDER), vim.fn.sha256(path), vim.fn.getpid(), buffer)
  local head = { version = VERSION, path = path, label = label, pid = vim.fn.getpid(), host = vim.fn.hostname() }
  -- (what is written first by libuv waits until its threads have begun: not when the first key is typed)
  uv.fs_stat(path, function() end)
  return setmetatable({ path = name, head = head, size = 0, waiting = {}, is_writing = false }, Journal)
end

---Writes what waits, one part after the other, while Neovim runs.
---@private
function Journal:write_on()
  local text = table.concat(self.waiting)
  self.waiting = {}
  if text == '' or not self.descriptor then
    self.is_writing = false
    return
  end
  self.is_writing = true
  uv.fs_write(self.descriptor, text, -1, function()
    task.soon(function()
      self:write_on()
    end)
  end)
end

---@private
---@param ... string
function Journal:write(...)
  for _, text in ipairs({ ... }) do
    self.waiting[#self.waiting + 1], self.size = text, self.size + #text
  end
  if not self.is_writing then
    self:write_on()
  end
end

---Begins the file, with the bytes that the document has.
---@private
---@param bytes string
---@return boolean whether it could be made
function Journal:begin(bytes)
  self:close()
  local descriptor = create(self.path)
  self.descriptor, self.bytes, self.size, self.waiting = descriptor, descriptor and bytes, 0, {}
  if descriptor then
    self:write(vim.json.encode(vim.tbl_extend('force', self.head, { size = #bytes })), '\n', bytes, '\n')
  end
  return descriptor ~= nil
end

---@private
function Journal:close()
  local descriptor = self.descriptor
  self.descriptor, self.bytes = nil, nil
  if descriptor then
    -- (a write may be under way)
    uv.fs_close(descriptor, function() end)
  end
end

---Takes in what the document's bytes are now.
---@param before string its bytes when the first edit came
---@param bytes string
---@param splice legacy.Splice|nil what made them of those that the file leads to, if that is known
function Journal:note(before, bytes, splice)
  if not self.bytes and (bytes == before or not self:begin(before)) then
    return
  elseif self.size > 2 * #bytes + ROOM then
    self:begin(bytes)
    return
  elseif self.bytes ~= bytes then
    splice = splice or splicing.between(self.bytes, bytes)
    self:write(('splice %d %d %d\n'):format(splice.at, #splice.gone, #splice.put), splice.put, '\n')
    self.bytes = bytes
  end
end

---Takes in text that isn't in the document yet, all that is.
---@param bytes string the document's
---@param edits legacy.Edit[]
function Journal:hold(bytes, edits)
  if not self.bytes and not self:begin(bytes) then
    return
  end
  self:write('held\n')
  for _, it in ipairs(edits) do
    local place = ('%d %d %d %d'):format(it.row, it.column, it.end_row, it.end_column)
    self:write(('text %s %d\n'):format(place, #it.text), it.text, '\n')
  end
end

---Ends it: all is saved, or nobody wants it.
function Journal:remove()
  if self.bytes then
    self:close()
    uv.fs_unlink(self.path)
  end
end

---@class legacy.Unsaved
---@field journal string its file
---@field path string the document's
---@field label string
---@field bytes string
---@field edits legacy.Edit[] of text that wasn't in the document yet
---@field private splices legacy.Splice[] what led to the bytes
---@field time integer when it was written last

---Reads a record, and what follows it.
---@param found legacy.Unsaved
---@param text string of the file
---@param from integer
---@return integer|nil where the next one begins; nil at the end, also where one is torn off
local function read_record(found, text, from)
  local line, behind = text:match('^([^\n]*)\n()', from)
  local word, numbers = (line or ''):match('^(%a+)(.*)$')
  local list = {}
  for number in (numbers or ''):gmatch('%d+') do
    list[#list + 1] = tonumber(number)
  end
  local size = list[#list] or 0
  local last = behind and behind + size or 0
  if word == 'held' then
    found.edits = {}
    return behind
  elseif not word or text:sub(last, last) ~= '\n' then
    return nil
  end
  local put = text:sub(behind, last - 1)
  if word == 'splice' then
    found.splices[#found.splices + 1] = { at = list[1], gone = ('-'):rep(list[2]), put = put }
    found.edits = {}
  elseif word == 'text' then
    local edit = { row = list[1], column = list[2], end_row = list[3], end_column = list[4], text = put }
    found.edits[#found.edits + 1] = edit
  end
  return last + 1
end

---Whether the Neovim is gone that wrote a file. Nobody knows that of one on another machine.
---@param head table
---@return boolean
local function is_left(head)
  if head.pid == 0 then
    return true
  end
  local name = processes.is_running(head.pid) and (processes.name(head.pid) or 'nvim')
  -- (another program may have its number by now)
  return head.host == vim.fn.hostname() and not (name and name:find('nvim', 1, true))
end

---@param path string
---@return legacy.Unsaved|nil nil where it is no such file, or of a Neovim that is there
local function read(path)
  local file = io.open(path, 'rb')
  local text = file and file:read('*a') or ''
  if file then
    file:close()
  end
  local line, from = text:match('^(%b{})\n()')
  local done, head = pcall(vim.json.decode, line or '')
  if not done or head.version ~= VERSION or #text < from + head.size or not is_left(head) then
    return nil
  end
  local found = { journal = path, path = head.path, label = head.label, edits = {}, splices = {} }
  local next = from + head.size + 1
  while next do
    next = read_record(found, text, next)
  end
  found.bytes = splicing.apply_splices(text:sub(from, from + head.size - 1), found.splices)
  local stat = uv.fs_stat(path)
  found.time = stat and stat.mtime.sec or 0
  return found
end

---What Neovims that are gone have left of a file unsaved, the last one first.
---@param path string
---@return legacy.Unsaved[]
function M.list_unsaved(path)
  local list = {}
  for _, name in ipairs(vim.fn.glob(state_folder.path(FOLDER) .. '/' .. vim.fn.sha256(path) .. '.*', true, true)) do
    list[#list + 1] = read(name)
  end
  table.sort(list, function(one, other)
    return one.time > other.time
  end)
  return list
end

---Keeps a document that is to be closed though nobody knows whether it is saved, as its editors would have.
---@param name string the document's
---@param label string
---@param bytes string
---@return boolean whether it could be
function M.leave(name, label, bytes)
  local head = { version = VERSION, path = '', label = label, pid = 0, host = vim.fn.hostname(), size = #bytes }
  return write_whole(('%s/%s.0.0'):format(state_folder.path(FOLDER), name), vim.json.encode(head) .. '\n' .. bytes .. '\n')
end

---Drops what was left.
---@param unsaved legacy.Unsaved
function M.drop(unsaved)
  uv.fs_unlink(unsaved.journal)
end

return M

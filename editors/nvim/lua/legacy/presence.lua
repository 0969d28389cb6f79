---Which editors have a document open, and what they wrote to its file. The program doesn't say so: the editors of a
---server keep a list, which is a document like others. Each line has the name of a document and a word: an editor, by its
---process and buffer, or `=` and what the file was when one of them had written it.
local base64 = require('legacy.base64')
local processes = require('legacy.processes')
local uv = vim.uv or vim.loop

local M = {}

---The list's name.
M.LIST = 'legacy.editors'

---How often it is written again after another editor was first.
local TRIES = 100

---@class legacy.Entry
---@field document string
---@field word string

---@class legacy.Presence
---@field document string
---@field me string
---@field is_ours boolean whether an editor opened the document, so that the last of them closes it
---@field others integer how many other editors have it open
---@field written string|nil what the file was when an editor had written it
---@field private entries legacy.Entry[] as they were seen last
---@field private rev integer|nil
local Presence = {}
Presence.__index = Presence

---@param document string its name
---@param buffer integer
---@return legacy.Presence
function M.new(document, buffer)
  return setmetatable({
    document = document,
    me = ('%d.%d'):format(vim.fn.getpid(), buffer),
    is_ours = false,
    others = 0,
    entries = {},
  }, Presence)
end

---A file's signature from `stat`: it changes when the file is written again.
---@param path string
---@return string|nil
function M.stamp(path)
  local stat = uv.fs_stat(path)
  return stat and ('=%d.%09d.%d.%d'):format(stat.mtime.sec, stat.mtime.nsec, stat.size, stat.ino)
end

---Whether an editor is still there. All are of one user, on one machine.
---@param word string
---@return boolean
local function lives(word)
  return processes.is_running(tonumber(word:match('^%d+')))
end

---@param connection legacy.Connection
---@return string|nil bytes the list, nil where there is none
---@return integer|nil rev
local function read_list(connection)
  for _ = 1, TRIES do
    local stat = connection:ask({ { op = 'stat', doc = M.LIST } })[1]
    if stat.fault then
      return nil
    end
    local source = connection:ask({ { op = 'source', doc = M.LIST, at = 0, len = stat.bytes } })[1]
    if source.rev == stat.rev and not source.fault then
      return base64.decode(source.bytes), stat.rev
    end
  end
end

---The documents that the list names, and how many editors each has that are there.
---@param connection legacy.Connection
---@return table<string, integer>
function M.count_editors(connection)
  local counts = {}
  for document, word in (read_list(connection) or ''):gmatch('(%S+) (%S+)\n') do
    local is_editor = word:sub(1, 1) ~= '=' and lives(word)
    counts[document] = (counts[document] or 0) + (is_editor and 1 or 0)
  end
  return counts
end

---Takes in what the list says.
---@private
---@param bytes string
---@param rev integer
function Presence:read(bytes, rev)
  self.entries, self.rev = {}, rev
  for document, word in bytes:gmatch('(%S+) (%S+)\n') do
    self.entries[#self.entries + 1] = { document = document, word = word }
  end
  self:count()
end

---Counts the others that live, of those that were seen.
function Presence:count()
  self.others, self.written = 0, nil
  for _, it in ipairs(self.entries) do
    local is_stamp = it.word:sub(1, 1) == '='
    if it.document == self.document and is_stamp then
      self.written = it.word
    elseif it.document == self.document and it.word ~= self.me and lives(it.word) then
      self.others = self.others + 1
    end
  end
end

---Changes the list; again if another editor was first.
---@private
---@param connection legacy.Connection
---@param keeps fun(entry: legacy.Entry): boolean which entries of the document stay
---@param added string|nil a word of the document
---@return boolean whether it was changed
function Presence:change(connection, keeps, added)
  for _ = 1, TRIES do
    local bytes, rev = read_list(connection)
    self:read(bytes or '', rev or 0)
    local lines = {}
    for _, it in ipairs(self.entries) do
      if it.document ~= self.document or keeps(it) then
        lines[#lines + 1] = ('%s %s\n'):format(it.document, it.word)
      end
    end
    lines[#lines + 1] = added and ('%s %s\n'):format(self.document, added)
    local now = table.concat(lines)
    local command = bytes and { op = 'splice', doc = M.LIST, rev = rev, at = 0, del = #bytes }
      or { op = 'open', doc = M.LIST, label = 'utf-8' }
    command.bytes = base64.encode(now)
    local reply = connection:ask({ command })[1]
    if not reply.fault then
      self:read(now, reply.rev)
      return true
    elseif reply.fault ~= 'Stale' and reply.fault ~= 'NameTaken' and reply.fault ~= 'NoDocument' then
      return false
    end
  end
  return false
end

---Joins those that have the document open. Editors that are gone leave the list.
---@param connection legacy.Connection
---@param own boolean whether the document was opened here
function Presence:enter(connection, own)
  local was_there = false
  self:change(connection, function(entry)
    local is_stamp = entry.word:sub(1, 1) == '='
    was_there = was_there or not is_stamp
    return is_stamp and self.others > 0 or not is_stamp and entry.word ~= self.me and lives(entry.word)
  end, self.me)
  self.is_ours = self.is_ours or own or was_there
end

---Leaves them. The last one removes all that the list has of the document.
---@param connection legacy.Connection
function Presence:leave(connection)
  self:change(connection, function(entry)
    return self.others > 0 and entry.word ~= self.me
  end)
end

---Says that the file was written.
---@param connection legacy.Connection
---@param stamp string
function Presence:write(connection, stamp)
  self:change(connection, function(entry)
    return entry.word:sub(1, 1) ~= '='
  end, stamp)
end

---Looks at the list again.
---@param connection legacy.Connection
function Presence:look(connection)
  local bytes, rev = read_list(connection)
  if bytes then
    self:read(bytes, rev)
  else
    self:enter(connection, false)
  end
end

---Asks whether the list has changed, and calls where it has, as `tell` of a connection does.
---@param connection legacy.Connection
---@param call fun()
function Presence:watch(connection, call)
  connection:tell({ op = 'stat', doc = M.LIST }, function(reply)
    if reply.rev ~= self.rev then
      call()
    end
  end)
end

return M

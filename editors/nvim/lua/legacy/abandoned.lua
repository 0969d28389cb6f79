---Documents that editors share and whose editors are all gone: they are closed where the program has no room for others. What
---is in them is kept, and offered to who opens their files next.
local base64 = require('legacy.base64')
local journals = require('legacy.journal')
local presence = require('legacy.presence')

local M = {}

---Bytes that one question asks for.
local PAGE = 1000000

---@param connection legacy.Connection
---@param name string
---@return table|nil what `stat` says
---@return string|nil bytes
local function read(connection, name)
  local stat, pages = connection:ask({ { op = 'stat', doc = name } })[1], {}
  for at = 0, (stat.bytes or 0) - 1, PAGE do
    local page = { op = 'source', doc = name, at = at, len = math.min(PAGE, stat.bytes - at) }
    local source = connection:ask({ page })[1]
    if source.fault or source.rev ~= stat.rev then
      return nil
    end
    pages[#pages + 1] = base64.decode(source.bytes)
  end
  if not stat.fault then
    return stat, table.concat(pages)
  end
end

---Closes a document, once its bytes are kept if somebody edited it.
---@param connection legacy.Connection
---@param name string
---@return boolean whether it was
local function close(connection, name)
  local stat, bytes = read(connection, name)
  if not stat or stat.rev > 0 and not journals.leave(name, stat.given, bytes) then
    return false
  end
  return not connection:ask({ { op = 'close', doc = name } })[1].fault
end

---Closes all of them.
---@param connection legacy.Connection
---@return integer how many
function M.close(connection)
  local count = 0
  for name, editors in pairs(presence.count_editors(connection)) do
    count = count + (editors == 0 and close(connection, name) and 1 or 0)
  end
  return count
end

---The documents that are known, each as a line: those whose editors are gone too.
---@param connection legacy.Connection
---@param paths table<string, string> by documents' names, as far as they are known
---@return string[]
function M.list(connection, paths)
  local lines = {}
  for name, editors in pairs(presence.count_editors(connection)) do
    local who = editors == 0 and 'its editors are gone' or editors == 1 and '1 editor' or editors .. ' editors'
    lines[#lines + 1] = ('%s  %s'):format(paths[name] or name, who)
  end
  table.sort(lines)
  return lines
end

return M

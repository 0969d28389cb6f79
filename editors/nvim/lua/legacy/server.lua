---A `gate` that serves many editors at a Unix socket: one that listens there, or one that is started in the background and
---ends when no client has been connected for a while.
local Connection = require('legacy.connection')
local messages = require('legacy.messages')
local record = require('legacy.record')
local task = require('legacy.task')
local uv = vim.uv or vim.loop

local M = {}

---Milliseconds between two tries to connect, and between two tries to start a server whose record another one has.
local PAUSE, AGAIN = 10, 1000

---Milliseconds until who listens takes a connection, or answers on one; and how many it has at once.
local PATIENCE, PLACES = 1000, 16

---What a server says of a file that it doesn't take as its record.
local NO_RECORD = 'record'

---@param path string
---@return table|nil pipe to who listens there
---@return string|nil why there is none
local function connect_pipe(path)
  local pipe = uv.new_pipe(false)
  local done, why = task.wait(function(resume)
    pipe:connect(path, function(fault)
      resume(true, fault)
    end)
  end, PATIENCE)
  if done and not why then
    return pipe
  end
  pipe:close()
  return nil, why or 'ETIMEDOUT'
end

---Calls where a server listens at a path, and waits for nothing.
---@param path string
---@param call fun()
function M.find(path, call)
  local pipe = uv.new_pipe(false)
  pipe:connect(path, function(fault)
    pipe:close()
    if not fault then
      call()
    end
  end)
end

---Starts a server that lives on when this editor ends, and connects to who listens first: where two editors start at
---once, one of two servers is refused the place.
---@param connection legacy.Connection
---@param path string
---@return table pipe
local function start_server(connection, path)
  local ended, number = false, nil
  local function start()
    local stderr, process = uv.new_pipe(false), nil
    ended = false
    process, number = connection:spawn({ stderr }, { stdio = { nil, nil, stderr }, detached = true }, function()
      ended = true
      process:close()
    end)
    process:unref()
    stderr:unref()
    connection.server = process
  end
  start()
  local last, again, pipe = uv.now() + connection.timeout, uv.now() + AGAIN, nil
  repeat
    -- (another one that has the record may still be reading it, or makes it short, and then none comes)
    local is_refused = ended and connection:is_refused_record()
    local over = ended and not is_refused or uv.now() > last
    pipe = connect_pipe(path)
    if not pipe then
      if over then
        connection:complain('does not listen at ' .. path)
      elseif is_refused and uv.now() > again then
        connection.complaint, again = '', uv.now() + AGAIN
        start()
      end
      task.sleep(PAUSE)
    end
  until pipe
  if not ended then
    record.tidy(connection.words, number, path)
  end
  return pipe
end

---Starts a server. If the last one has left its place in order, so that nobody knows its documents any more, its record is
---made short before. If no server takes the plugin's own record, it is put aside.
---@param connection legacy.Connection
---@param path string
---@return table pipe
local function start_with_record(connection, path)
  if connection.is_fresh then
    record.compact(connection.words)
  end
  local done, pipe = pcall(start_server, connection, path)
  local is_bad = not done and connection:last_complaint():find(NO_RECORD) and not connection:is_refused_record()
  local aside = is_bad and record.put_aside(connection.words)
  if aside then
    messages.warn(('no server takes the record of the last one; it is in %s'):format(vim.fn.fnamemodify(aside, ':~')))
    connection.complaint = ''
    return start_server(connection, path)
  end
  return done and pipe or error(pipe, 0)
end

---Whether a server has as many connections as it takes, and one more waits. Linux names them, by the states of their
---sockets: 3 is one that was taken, 2 one that waits. (A server makes its socket in a folder beside the path, and renames it.)
---@param path string
---@return boolean
function M.is_full(path)
  local file = io.open('/proc/net/unix', 'r')
  local taken, waiting, first = 0, 0, path .. '.new/socket'
  for line in file and file:lines() or function() end do
    local state, name = line:match('^%S+ %S+ %S+ %S+ %S+ (%S+) +%d+ (.*)$')
    local is_own = name == path or name == first
    taken = taken + (is_own and state == '03' and 1 or 0)
    waiting = waiting + (is_own and state == '02' and 1 or 0)
  end
  if file then
    file:close()
  end
  return taken >= PLACES and waiting > 0
end

---Raises an error if a server has no place left. That is seen when it doesn't answer.
---@param connection legacy.Connection
local function find_place(connection)
  local is_answered = task.wait(function(resume)
    connection:tell({ op = 'stat', doc = '' }, function()
      resume(true)
    end)
  end, PATIENCE)
  if not is_answered and M.is_full(connection.path) then
    connection:stop()
    error(('legacy: all %d places are taken at %s; an editor there has to leave first'):format(PLACES, connection.path), 0)
  end
end

---Connects to the server at a path. It is started if none listens.
---@param words string[] the command line that starts it
---@param path string
---@param timeout integer
---@param memory integer|nil MiB that it may have where it is started
---@param quietly boolean|nil whether none is started, and nothing said
---@return legacy.Connection|nil
function M.connect(words, path, timeout, memory, quietly)
  local connection = Connection.new(words, timeout, memory)
  local pipe, why = connect_pipe(path)
  if not pipe and quietly then
    return nil
  elseif not pipe and not (why:find('ENOENT') or why:find('ECONNREFUSED')) then
    error(("legacy: the socket '%s' can't be used (%s)"):format(path, why), 0)
  end
  connection.is_fresh = not pipe and why:find('ENOENT') ~= nil
  connection.stdin, connection.path = pipe or start_with_record(connection, path), path
  connection:listen(connection.stdin)
  find_place(connection)
  return connection
end

return M

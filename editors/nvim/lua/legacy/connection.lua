---A running `gate`: commands go to its standard input or to its socket, one a line, and its replies come back in their
---order. Writes are queued and replies are read as they come, so any number of commands can be in flight.
local lists = require('legacy.lists')
local task = require('legacy.task')
local uv = vim.uv or vim.loop

---A command that was sent.
---@class legacy.Sent
---@field id integer
---@field line string|nil its reply, once it came
---@field call fun(reply: table)|nil what is called with it, where little of Neovim can be used (|api-fast|)
---@field resume fun()|nil what is called once it came, or never will

---@class legacy.Connection
---@field words string[] the command line
---@field timeout integer milliseconds to wait for the replies
---@field memory integer|nil MiB that the program may have with all its documents
---@field ended boolean
---@field is_older boolean|nil whether the program is from before it had `since`
---@field private waiting legacy.Sent[] what was sent and has no reply yet, in order
---@field private begun string[] the parts of the line that has begun
---@field complaint string what the program wrote to standard error
---@field private sent integer the number of the last command
---@field private last table[] commands that go out in front of the next ones, and whose replies nobody takes
---@field private process table|nil the program, where it is this connection's own
---@field private stdin table where commands go
---@field server table|nil the program in the background, where it was started for this connection
---@field path string|nil where it listens
---@field is_fresh boolean|nil whether it was started where no server had been, or the last one had left in order
---@field silence integer for how many looks nothing came though something was asked
---@field on_silence fun(silence: integer)|nil is called at each such look, and with 0 once something comes
---@field private watcher table|nil the timer of these looks
local Connection = {}
Connection.__index = Connection

---Milliseconds between two looks for whether a program that was asked something is silent.
Connection.LOOK = 500

---By how much the first numbers of two connections differ at least.
local APART = 20000

---Hands a reply to the command that has waited longest.
---@private
---@param line string
function Connection:hand_reply(line)
  local sent = table.remove(self.waiting, 1)
  self:hear()
  if not sent then
    self:stop()
    return
  end
  sent.line = line
  if sent.call then
    sent.call(vim.json.decode(line))
  end
  if sent.resume then
    sent.resume()
  end
end

---Notices that the program isn't silent.
---@private
function Connection:hear()
  if self.silence > 0 then
    self.silence = 0
    self:tell_silence()
  end
end

---@private
function Connection:tell_silence()
  task.soon(function()
    if self.on_silence then
      self.on_silence(self.silence)
    end
  end)
end

---Begins to check whether the program is silent. (Checks are counted, and not time: Neovim itself may have been stopped.)
---@private
function Connection:watch_silence()
  if self.watcher then
    return
  end
  self.watcher = uv.new_timer()
  self.watcher:start(Connection.LOOK, Connection.LOOK, function()
    if self.ended or #self.waiting == 0 then
      self.watcher:close()
      self.watcher = nil
      return
    end
    self.silence = self.silence + 1
    if self.silence > 1 then
      self:tell_silence()
    end
  end)
end

---Has all know that wait for a reply that none will come.
---@private
function Connection:finish()
  self.ended = true
  self:hear()
  local waiting = self.waiting
  self.waiting = {}
  for _, sent in ipairs(waiting) do
    if sent.resume then
      sent.resume()
    end
  end
end

---@param data string
function Connection:receive(data)
  local from, feed = 1, data:find('\n', 1, true)
  while feed do
    self.begun[#self.begun + 1] = data:sub(from, feed - 1)
    self:hand_reply(table.concat(self.begun))
    self.begun = {}
    from = feed + 1
    feed = data:find('\n', from, true)
  end
  if from <= #data then
    self.begun[#self.begun + 1] = data:sub(from)
  end
end

---Where a connection's numbers of commands begin. No two connections of a server have the same ones, so that its record tells
---them apart. (JSON is written with fourteen digits.)
---@return integer
local function first_number()
  local seed = ('%d %s'):format(vim.fn.getpid(), uv.hrtime())
  return tonumber(vim.fn.sha256(seed):sub(1, 8), 16) * APART
end

---@param words string[]
---@param timeout integer
---@param memory integer|nil
---@return legacy.Connection
function Connection.new(words, timeout, memory)
  local self = setmetatable({ words = words, timeout = timeout, memory = memory, ended = false }, Connection)
  self.waiting, self.begun, self.complaint, self.sent, self.last, self.silence = {}, {}, '', first_number(), {}, 0
  return self
end

---Reads replies until there are no more.
---@param pipe table
function Connection:listen(pipe)
  pipe:read_start(function(_, data)
    if data then
      self:receive(data)
    else
      if not pipe:is_closing() then
        pipe:close()
      end
      self:finish()
    end
  end)
end

---What a shell does that takes KiB and the words of a program. (What isn't limited is no number.)
local BOUND = '[ "$(ulimit -v)" -le "$0" ] 2>/dev/null || ulimit -v "$0" && exec "$@"'

---The words that start the program within its memory: a shell bounds its own, if that isn't lower already, and becomes it.
---What can't be run is left alone, and so found out.
---@private
---@return string[]
function Connection:start_words()
  if not self.memory or vim.fn.executable(self.words[1]) == 0 then
    return self.words
  end
  return vim.list_extend({ 'sh', '-c', BOUND, ('%d'):format(self.memory * 1024) }, self.words)
end

---Starts the program, and returns its process; an error says why it doesn't start.
---@param streams table[] its standard streams that are pipes, the one for errors last
---@param options table
---@param ended fun()
---@return table
---@return integer its number
function Connection:spawn(streams, options, ended)
  local stderr, words = streams[#streams], self:start_words()
  options.args, options.stdio = vim.list_slice(words, 2), options.stdio or streams
  local process, number = uv.spawn(words[1], options, ended)
  if not process then
    for _, pipe in ipairs(streams) do
      pipe:close()
    end
    error(("legacy: the program '%s' can't be started (%s); the setting 'gate' names it"):format(self.words[1], number), 0)
  end
  stderr:read_start(function(_, data)
    if data then
      self.complaint = self.complaint .. data
    else
      stderr:close()
    end
  end)
  return process, number
end

---Starts the program, for this connection alone; an error says why it doesn't start.
---@param words string[]
---@param timeout integer
---@param memory integer|nil
---@return legacy.Connection
function Connection.start(words, timeout, memory)
  local self = Connection.new(words, timeout, memory)
  local stdin, stdout, stderr = uv.new_pipe(false), uv.new_pipe(false), uv.new_pipe(false)
  self.process = self:spawn({ stdin, stdout, stderr }, {}, function()
    self.ended = true
    self.process:close()
  end)
  self.stdin = stdin
  self:listen(stdout)
  return self
end

---Whether other editors may use the program too.
---@return boolean
function Connection:is_shared()
  return self.process == nil
end

---Ends the connection, and the program that was started for it.
function Connection:stop()
  self:finish()
  if not self.stdin:is_closing() then
    self.stdin:close()
  end
  if self.process and not self.process:is_closing() then
    self.process:kill('sigterm')
  end
end

---Sends a command some time, at the latest with the next ones, and drops its reply. It may be called when nothing
---can be waited for.
---@param command table
function Connection:later(command)
  self.last[#self.last + 1] = command
  task.soon(function()
    if not self.ended then
      self:send({})
    end
  end)
end

---Sends commands, after those that were left for later.
---@private
---@param commands table[]
---@param call fun(reply: table)|nil what is called with the reply to each
---@return legacy.Sent[] all that was sent
---@return integer how many of these were left for later
function Connection:send(commands, call)
  local before = #self.last
  local all, lines, sent = lists.append(self.last, commands), {}, {}
  self.last = {}
  for i, command in ipairs(all) do
    self.sent = self.sent + 1
    command.id = self.sent
    lines[i] = vim.json.encode(command) .. '\n'
    sent[i] = { id = command.id, call = i > before and call or nil }
  end
  lists.append(self.waiting, sent)
  if #lines > 0 and not self.stdin:is_closing() then
    self.stdin:write(lines)
    self:watch_silence()
  end
  return sent, before
end

---Sends a command, and calls with its reply once it is there. If the connection ends before, nothing is called. It may be
---called, and calls, when little of Neovim can be used, so that a user who types notices nothing.
---@param command table
---@param call fun(reply: table)
function Connection:tell(command, call)
  self:send({ command }, call)
end

---Sends all commands, and returns their replies.
---@param commands table[]
---@param limit integer|nil milliseconds to wait for them
---@return table[]
function Connection:ask(commands, limit)
  local sent, before = self:send(commands)
  local last = sent[#sent]
  if not last then
    return {}
  end
  task.wait(function(resume)
    last.resume = resume
    if self.ended or last.line then
      resume()
    end
  end, limit or self.timeout)
  if not last.line then
    self:fail(self.ended)
  end
  local replies = {}
  for i = before + 1, #sent do
    replies[i - before] = self:reply(sent[i])
  end
  return replies
end

---The reply to a command.
---@private
---@param sent legacy.Sent
---@return table
function Connection:reply(sent)
  local reply = vim.json.decode(sent.line)
  if reply.id and reply.id ~= sent.id then
    self:stop()
    error(('legacy: a reply to command %.0f came in place of %.0f'):format(reply.id, sent.id), 0)
  end
  return reply
end

---Ends the program after a reply that didn't come, and says so: what it would still answer belongs to nothing.
---@private
---@param ended boolean whether the program ended by itself
function Connection:fail(ended)
  self:stop()
  self:complain(ended and 'ended' or 'gave no reply')
end

---What the program wrote of itself, for which a program that ended is waited for a while.
---@private
---@return string
function Connection:last_complaint()
  for _ = 1, 10 do
    if self.complaint == '' then
      task.sleep(20)
    end
  end
  return vim.trim(self.complaint)
end

---Whether the program, which ended, did so since another one has its record.
---@return boolean
function Connection:is_refused_record()
  return self:last_complaint():find('another gate records in', 1, true) ~= nil
end

---An error by what the program wrote of itself, or by what is known of it.
---@param what string
function Connection:complain(what)
  local complaint = self:last_complaint()
  if complaint ~= '' then
    error('legacy: ' .. complaint, 0)
  end
  error(("legacy: the program '%s' %s"):format(table.concat(self.words, ' '), what), 0)
end

return Connection

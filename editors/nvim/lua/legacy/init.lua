---Edits files in legacy encodings through `gate`, so that no byte changes except those of the edits.
local Buffer = require('legacy.buffer')
local Connection = require('legacy.connection')
local Sharing = require('legacy.sharing')
local abandoned = require('legacy.abandoned')
local config = require('legacy.config')
local messages = require('legacy.messages')
local record = require('legacy.record')
local recovery = require('legacy.recovery')
local server = require('legacy.server')
local task = require('legacy.task')

local M = {}

M.setup = config.setup

---@type legacy.Connection|nil
local connection

---@type table<integer, legacy.Buffer>
local buffers = {}

---Connects one after another.
local connecting = task.turns()

---Whether the program that editors share was silent for long, so that this one has a program of its own since then.
local is_alone = false

---Has all buffers know for how long the program is silent.
---@param silence integer looks
local function hear(silence)
  for _, buffer in pairs(buffers) do
    if not buffer.closed then
      buffer.quiet:hear(silence)
    end
  end
end

---Goes on with a program of this editor's own.
local function leave_server()
  is_alone = true
  if connection and not connection.ended then
    connection:stop()
  end
end

---@param settings legacy.Settings
---@param quietly boolean|nil
---@return legacy.Connection|nil
local function make_connection(settings, quietly)
  local words = config.words(settings)
  if settings.socket then
    local there = server.connect(words, settings.socket, settings.timeout, settings.memory, quietly)
    if there and there.is_fresh then
      -- (no editor has what the record has: it is offered as what any killed one has left)
      abandoned.close(there)
      record.forget(words)
    end
    return there
  elseif not quietly then
    return Connection.start(words, settings.timeout, settings.memory)
  end
end

---The one connection for all buffers. It is made if there is none, if the program ended, or if the command line or its
---memory is another by now.
---@param quietly boolean|nil whether only a server is connected to that listens
---@return legacy.Connection|nil
local function connect(quietly)
  local settings = config.get()
  if is_alone then
    settings.socket = nil
  end
  local as_set = { config.words(settings), settings.memory }
  if connection and not connection.ended and not vim.deep_equal({ connection.words, connection.memory }, as_set) then
    connection:stop()
  end
  if connection and not connection.ended then
    return connection
  end
  connecting:take(function()
    if not connection or connection.ended then
      connection = make_connection(settings, quietly) or connection
    end
    if connection then
      connection.on_silence, connection.leave = hear, leave_server
    end
  end)
  return connection and not connection.ended and connection or nil
end

---The encoding and the file of a buffer's name, `legacy://ENCODING/FILE`.
---@param name string
---@return string, string
local function parts(name)
  local label, path = name:match('^legacy://([^/]+)/(.+)$')
  if not label then
    error('legacy: a name is legacy://ENCODING/FILE', 0)
  end
  return label, vim.fn.fnamemodify(path, ':p')
end

---The command that shows an error, if there is one.
---@param why string|nil
---@return string
local function echo_command(why)
  if not why then
    return ''
  end
  messages.calm(why, 'ErrorMsg')
  return "echoerr '" .. why:gsub("'", "''") .. "'"
end

---Calls, and returns the command that was made, or that shows the error.
---@param call fun(): string|nil
---@return string command
---@return string|nil why
local function command_of(call)
  local done, result = pcall(call)
  if done then
    return result or ''
  end
  local why = tostring(result):gsub('\n', ' ')
  return echo_command(why), why
end

---Why the last file wasn't read, until it is known to have been shown.
---@type string|nil
local unread

---Takes the error that no user has seen: Neovim drops one of `BufReadCmd` if a script in Lua runs the command.
---@return string|nil
local function unseen()
  local why = unread
  unread = nil
  return why and vim.v.errmsg ~= why and why or nil
end

---The command that edits a file, from the arguments of `:LegacyEdit`.
---@param arguments string
---@param bang string
---@return string
function M.edit(arguments, bang)
  return (command_of(function()
    local label, path = arguments:match('^(%S+)%s+(.+)$')
    if not label then
      error('legacy: :LegacyEdit takes an encoding and a file', 0)
    end
    if vim.fn.filereadable(path) == 0 then
      path = vim.fn.expand(path)
    end
    local name = ('legacy://%s/%s'):format(label, vim.fn.fnamemodify(path, ':p'))
    return ('edit%s %s'):format(bang, vim.fn.fnameescape(name))
  end))
end

---Reads the file of a name into a buffer.
---@param number integer
---@param name string
---@param bang integer 1 where the command had a !
---@return string
function M.read(number, name, bang)
  local before = buffers[number]
  if before then
    before:close()
    buffers[number] = nil
  end
  local command, why = command_of(function()
    local label, path = parts(name)
    task.await(function()
      Sharing.finish()
      local buffer = Buffer.read(number, label, path, connect, before and bang == 1)
      buffers[number], buffer.name = buffer, name
    end)
    recovery.offer(buffers[number])
  end)
  if why then
    unread, vim.v.errmsg = why, ''
    vim.schedule(function()
      local text = unseen()
      if text then
        messages.warn((text:gsub('^legacy: ', '')))
      end
    end)
  end
  return command
end

---The command that shows why `:LegacyEdit` read nothing, if no user has seen it.
---@return string
function M.failure()
  return echo_command(unseen())
end

---Writes a buffer to the file of a name. A buffer that got that name after it was read, for example by `:saveas`, shows
---that file then.
---@param number integer
---@param name string
---@param bang integer 1 where the command had a !
---@return string
function M.write(number, name, bang)
  return (command_of(function()
    local buffer = M.buffer(number)
    local label, path = parts(name)
    if label ~= parts(buffer.name) then
      error('legacy: not written: a document is written in its own encoding', 0)
    end
    local is_own = name == buffer.name
    buffer:write(not is_own and path or nil, bang == 1)
    if not is_own and name == vim.api.nvim_buf_get_name(number) then
      return M.read(number, name, bang)
    end
  end))
end

---Milliseconds for which an editor that ends waits for the program.
local PARTING = 1000

---Closes the documents of a program that outlives this editor. What isn't saved is kept where a signal ends it.
function M.leave()
  for _, buffer in pairs(vim.v.dying == 0 and buffers or {}) do
    if buffer.journal then
      buffer.journal:remove()
    end
  end
  if connection and connection:is_shared() and not connection.ended then
    for _, buffer in pairs(buffers) do
      buffer:close()
    end
    pcall(task.await, function()
      Sharing.finish()
      connection:ask({})
    end, PARTING)
  end
end

---The document's side of a buffer; an error if it has none.
---@param number integer
---@return legacy.Buffer
function M.buffer(number)
  local buffer = buffers[number]
  if not buffer or buffer.closed then
    error('legacy: the buffer shows no document', 0)
  end
  return buffer
end

---Takes, compares or drops what was left unsaved of the current buffer's file.
---@param word string
---@return string
function M.recover(word)
  return (command_of(function()
    recovery.run(M.buffer(vim.api.nvim_get_current_buf()), word)
  end))
end

---Lists the documents that are known to be open; with a ! it closes those whose editors are gone.
---@param bang string
---@return string
function M.documents(bang)
  return (command_of(function()
    local paths = {}
    for _, buffer in pairs(buffers) do
      paths[buffer.document.name] = buffer.path
    end
    local lines = task.await(function()
      local there = connect(true) or error('legacy: no program is running', 0)
      local closed = bang == '!' and abandoned.close(there) or 0
      local list = there:is_shared() and abandoned.list(there, paths) or vim.tbl_values(paths)
      return bang == '!' and { ('%d documents were closed'):format(closed) } or list
    end)
    messages.list(lines)
  end))
end

---@param lead string
---@return string[]
function M.complete_recovery(lead)
  return vim.tbl_filter(function(word)
    return vim.startswith(word, lead)
  end, recovery.words)
end

---The labels of the label file that begin with some letters.
---@param lead string
---@return string[]
local function labels(lead)
  local path = config.get().labels
  if not path then
    return {}
  end
  local read, groups = pcall(function()
    return vim.json.decode(table.concat(vim.fn.readfile(path), '\n'))
  end)
  local found = {}
  for _, group in ipairs(read and groups or {}) do
    for _, encoding in ipairs(group.encodings) do
      for _, label in ipairs(encoding.labels) do
        if vim.startswith(label, lead:lower()) then
          found[#found + 1] = label
        end
      end
    end
  end
  return found
end

---What `:LegacyEdit` completes: an encoding, and then a file.
---@param lead string
---@param line string
---@return string[]
function M.complete(lead, line)
  if line:find('LegacyEdit!?%s+%S*$') then
    return labels(lead)
  end
  return vim.fn.getcompletion(lead, 'file')
end

return M

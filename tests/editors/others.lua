---Other Neovims, which share documents with this one at a socket.
local it = require('harness')

local M = {}

local sockets = 0

---Settings of a socket at which nobody listens yet.
---@return table
function M.settings()
  sockets = sockets + 1
  return { socket = ('%s/socket%d'):format(it.work, sockets) }
end

---Whether the tested program keeps records.
M.has_records = vim.fn.system({ it.gate, 'serve', '--help' }):find('--resume', 1, true) ~= nil

---Whether it compacts them.
M.compacts = vim.fn.system({ it.gate, '--help' }):find('compact', 1, true) ~= nil

---The same, of a server that keeps a record.
---@return table
function M.settings_with_record()
  local given = M.settings()
  given.record = given.socket .. '.record'
  return given
end

---The words of a process, each behind a NUL; none where it is gone.
---@param path string
---@return string
local function words_of(path)
  local file = io.open(path, 'rb')
  local words = file and file:read('*a') or ''
  if file then
    file:close()
  end
  return '\0' .. words
end

---Whether a process has ended, with all that it held.
---@param number string
---@return boolean
local function is_over(number)
  local file = io.open('/proc/' .. number .. '/stat', 'rb')
  local state = file and file:read('*a') or ''
  if file then
    file:close()
  end
  return state:match('%) (%a)') == nil or state:match('%) (%a)') == 'Z'
end

---The process of the server at a socket, whoever started it.
---@param given table
---@return integer|nil
function M.server(given)
  for _, path in ipairs(vim.fn.glob('/proc/[0-9]*/cmdline', true, true)) do
    local words = words_of(path)
    if words:find('\0serve\0', 1, true) and words:find('\0' .. given.socket .. '\0', 1, true) then
      return tonumber(path:match('%d+'))
    end
  end
end

---Kills the server at a socket, and waits until it has ended.
---@param given table
---@return boolean whether there was one
function M.kill(given)
  local number = M.server(given)
  if number then
    vim.loop.kill(number, 'sigkill')
    it.same(vim.wait(it.LIMIT, function()
      return is_over(tostring(number))
    end, 1), true, 'the server ends')
  end
  return number ~= nil
end

---The command line of another Neovim, in which the harness can be used.
---@param words string[] its own
---@return string[]
function M.words(words)
  local all = vim.list_extend({ vim.v.progpath, '--clean', '-n' }, words)
  vim.list_extend(all, { '--cmd', 'set runtimepath=' .. vim.o.runtimepath })
  return vim.list_extend(all, { '--cmd', ('lua package.path = %q'):format(package.path) })
end

---Another Neovim that is there, in which calls of the harness are made by their names.
---@param channel integer
---@param settings table
function M.at(channel, settings)
  local other = { settings = settings }
  function other.lua(code, ...)
    return vim.rpcrequest(channel, 'nvim_exec_lua', code, { ... })
  end
  function other.call(name, ...)
    return other.lua('return require("harness")[...](select(2, ...))', name, ...)
  end
  function other.edit(label, path)
    other.lua('vim.cmd(...)', ('silent LegacyEdit %s %s'):format(label, path))
  end
  function other.input(keys)
    vim.rpcrequest(channel, 'nvim_input', keys)
  end
  ---Keys, once those before are done.
  function other.type(keys)
    other.input(keys)
    vim.rpcrequest(channel, 'nvim_eval', '1')
  end
  function other.shows(lines)
    it.same(vim.wait(it.LIMIT, function()
      return vim.deep_equal(other.call('lines'), lines)
    end, 20), true, vim.inspect(other.call('lines')))
  end
  function other.stop()
    -- (it may have quit before)
    pcall(vim.rpcnotify, channel, 'nvim_command', 'qall!')
  end
  other.call('settings', settings)
  return other
end

---Another Neovim without a screen.
---@param settings table
function M.editor(settings)
  local channel = vim.fn.jobstart(M.words({ '--headless', '--embed' }), { rpc = true })
  local other = M.at(channel, settings)
  function other.quit()
    other.stop()
    vim.fn.jobwait({ channel }, it.LIMIT)
  end
  ---@param signal string|nil
  function other.kill(signal)
    vim.loop.kill(vim.fn.jobpid(channel), signal or 'sigkill')
    vim.fn.jobwait({ channel }, it.LIMIT)
  end
  return other
end

---That this editor comes to show lines.
function M.shows(lines)
  it.same(vim.wait(it.LIMIT, function()
    return vim.deep_equal(it.lines(), lines)
  end, 20), true, vim.inspect(it.lines()))
end

---Runs a test of this editor and another one at a socket of their own, at which this one has started the server.
---@param name string
---@param label string
---@param bytes string
---@param call fun(other: table, path: string, server: table)
---@param given table|nil settings besides
function M.together(name, label, bytes, call, given)
  it.test(name, not label:find('^utf'), function()
    local settings = vim.tbl_extend('force', M.settings(), given or {})
    it.settings(settings)
    local path = it.open(label, bytes)
    local server = it.buffer().document.connection.server
    local other = M.editor(settings)
    local done, why = xpcall(function()
      other.edit(label, path)
      call(other, path, server)
    end, debug.traceback)
    other.quit()
    server:kill('sigkill')
    assert(done, why)
  end)
end

return M

---Neovims in a terminal, that of tmux: what only a terminal does, as to paste, is done there.
local it = require('harness')
local others = require('others')

local M = {}

---Whether there is a tmux.
M.is_there = vim.fn.executable('tmux') == 1

local number = 0

---@param place string its socket
---@param words string[]
local function tmux(place, words)
  local said = vim.fn.system(vim.list_extend({ 'tmux', '-u', '-f', '/dev/null', '-S', place }, words))
  it.same(vim.v.shell_error, 0, 'tmux ' .. words[1] .. ': ' .. said)
  return said
end

---A Neovim in a terminal of its own.
---@param settings table
function M.editor(settings)
  number = number + 1
  local place = ('%s/tmux%d'):format(it.work, number)
  local socket = place .. '.nvim'
  local words = { 'new-session', '-d', '-x', '90', '-y', '24' }
  tmux(place, vim.list_extend(words, others.words({ '--listen', socket })))
  local channel
  it.same(vim.wait(it.LIMIT, function()
    local done, found = pcall(vim.fn.sockconnect, 'pipe', socket, { rpc = true })
    channel = done and found
    return done
  end, 20), true, 'Neovim listens')
  local other = others.at(channel, settings)
  ---Text, as a user pastes it into the terminal.
  function other.paste(text)
    it.write(place .. '.text', text)
    tmux(place, { 'load-buffer', place .. '.text' })
    tmux(place, { 'paste-buffer', '-p', '-r' })
  end
  ---Keys, as they are typed into the terminal.
  function other.press(...)
    tmux(place, { 'send-keys', ... })
  end
  ---What the terminal shows.
  function other.screen()
    return tmux(place, { 'capture-pane', '-p' })
  end
  ---Kills it, as the system or a user does.
  function other.kill()
    (vim.uv or vim.loop).kill(other.lua('return vim.fn.getpid()'), 'sigkill')
    pcall(vim.fn.chanclose, channel)
    vim.fn.system({ 'tmux', '-S', place, 'kill-server' })
  end
  function other.quit()
    other.stop()
    pcall(vim.fn.chanclose, channel)
    vim.fn.system({ 'tmux', '-S', place, 'kill-server' })
  end
  return other
end

local skipped = 0

---Runs a test of a Neovim in a terminal, which edits a file.
---@param name string
---@param label string
---@param bytes string
---@param settings table|nil
---@param call fun(other: table, path: string)
function M.within(name, label, bytes, settings, call)
  if not M.is_there then
    skipped = skipped + 1
    return
  end
  it.test(name, not label:find('^utf') and label ~= 'x-user-defined', function()
    local path = ('%s/terminal%d.txt'):format(it.work, number)
    it.write(path, bytes)
    local other = M.editor(settings or {})
    local done, why = xpcall(function()
      other.edit(label, path)
      call(other, path)
    end, debug.traceback)
    other.quit()
    if settings and settings.socket then
      others.kill(settings)
    end
    assert(done, why)
  end)
end

---Says how many tests were skipped.
function M.summary()
  if skipped > 0 then
    io.stdout:write(('%d skipped, which need tmux\n'):format(skipped))
  end
end

return M

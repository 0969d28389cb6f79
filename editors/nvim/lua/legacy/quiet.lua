---What a buffer does whose program is silent: it says so, and after a while takes no more text, or continues with a
---program of its own, by a setting.
local messages = require('legacy.messages')

local api = vim.api

---@class legacy.Quiet
---@field private buffer legacy.Buffer
---@field private is_held boolean whether the buffer takes no text
---@field private statuslines table<integer, string> by windows, what they were
local Quiet = {}
Quiet.__index = Quiet

---Looks, of half a second each, until the program counts as silent, and until that lasts too long.
local SOME = 4
Quiet.MANY = 20

---What Neovim shows where 'statusline' is empty.
local DEFAULT = '%<%f %h%m%r%=%-14.(%l,%c%V%) %P'

---@param buffer legacy.Buffer
---@return legacy.Quiet
function Quiet.new(buffer)
  return setmetatable({ buffer = buffer, is_held = false, statuslines = {} }, Quiet)
end

---@param window integer
---@param call fun(): any
---@return any
local function within(window, call)
  return api.nvim_win_call(window, call)
end

---Shows for how long the program is silent in the lines of windows that don't show it by themselves.
---@private
function Quiet:show()
  for _, window in ipairs(vim.fn.win_findbuf(self.buffer.number)) do
    within(window, function()
      local own = api.nvim_get_option_value('statusline', { scope = 'local' })
      local now = own ~= '' and own or vim.go.statusline
      if not self.statuslines[window] and not now:find('legacy_status', 1, true) then
        self.statuslines[window] = own
        local shown = now ~= '' and now or DEFAULT
        vim.opt_local.statusline = "%#WarningMsg#%{get(b:,'legacy_status','')}%* " .. shown
      end
    end)
  end
end

---@private
function Quiet:hide()
  for window, own in pairs(self.statuslines) do
    if api.nvim_win_is_valid(window) then
      within(window, function()
        vim.opt_local.statusline = own
      end)
    end
  end
  self.statuslines = {}
end

---@private
---@param is_held boolean
function Quiet:hold(is_held)
  if self.is_held ~= is_held then
    self.is_held = is_held
    vim.bo[self.buffer.number].modifiable = not is_held
  end
end

---Takes no more text, or leaves the program.
---@private
function Quiet:give_up()
  local connection = self.buffer.document.connection
  if self.buffer.settings.silent == 'alone' then
    connection.leave()
    messages.warn('the program gives no reply; this Neovim goes on with one of its own')
  elseif not self.is_held then
    self:hold(true)
    messages.warn("the program gives no reply; the buffer can't be changed until it does")
  end
end

---@param silence integer for how many looks the program is silent
function Quiet:hear(silence)
  local number = self.buffer.number
  if not api.nvim_buf_is_loaded(number) then
    return
  end
  self.buffer.sending:hold()
  local is_silent = silence >= SOME
  vim.b[number].legacy_status = is_silent and ('[no reply for %d s]'):format(silence / 2) or ''
  if is_silent then
    self:show()
    vim.cmd('redrawstatus')
  elseif silence == 0 then
    self:hide()
    self:hold(false)
  end
  if silence >= Quiet.MANY then
    self:give_up()
  end
end

return Quiet

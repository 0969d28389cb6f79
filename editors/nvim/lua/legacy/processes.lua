---Processes of this machine, by their numbers.
local uv = vim.uv or vim.loop

local M = {}

---What Linux says of a process: its name in parentheses, and its state.
---@param number integer
---@return string
local function describe(number)
  local file = io.open(('/proc/%d/stat'):format(number), 'r')
  local text = file and file:read('*l') or ''
  if file then
    file:close()
  end
  return text
end

---Whether a process runs. One that has ended has its number until its parent asks about it.
---@param number integer
---@return boolean
function M.is_running(number)
  local _, _, code = uv.kill(number, 0)
  local state = code ~= 'ESRCH' and describe(number):match('%) (%a)')
  return code ~= 'ESRCH' and state ~= 'Z' and state ~= 'X'
end

---The name of the program that a process runs, if the system tells it.
---@param number integer
---@return string|nil
function M.name(number)
  return describe(number):match('%((.*)%)')
end

return M

---The folders in which the plugin keeps what has to survive this Neovim, for its user alone.
local M = {}

---Their mode, and that of files in them.
local FOLDER = tonumber('700', 8)
M.PRIVATE = tonumber('600', 8)

---@param name string
---@return string
function M.path(name)
  local state = os.getenv('XDG_STATE_HOME')
  return (state and state ~= '' and state or vim.fn.expand('~/.local/state')) .. '/gate/' .. name
end

---Makes one if it is missing.
---@param name string
---@return boolean whether it is there then
function M.make(name)
  local path = M.path(name)
  if vim.fn.isdirectory(path) == 0 then
    -- (two Neovims may make it at once, of which one gets an error)
    pcall(vim.fn.mkdir, path, 'p', FOLDER)
  end
  return vim.fn.isdirectory(path) == 1
end

return M

---Lists that grow at each question. (`vim.list_extend` looks at its arguments by what LuaJIT of Neovim 0.7.2 compiles wrongly now
---and then, after very many calls.)
local M = {}

---Appends items to a list.
---@generic T
---@param list T[]
---@param items T[]
---@return T[] list
function M.append(list, items)
  for i = 1, #items do
    list[#list + 1] = items[i]
  end
  return list
end

return M

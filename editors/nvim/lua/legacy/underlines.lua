---Draws diagnostics as Neovim's own handlers `underline` and `virtual_text` do. Those look at every mark at every change of a
---line, so undo of a change in many lines takes several times as long if one of them is damaged. These marks move by themselves.
local api = vim.api

local M = {}

---The name of the handler, and the namespace of what it draws.
local HANDLER = 'legacy'
local drawn = api.nvim_create_namespace('legacy.underlines')

---The suffixes of Neovim's highlight groups.
local GROUPS = { 'Error', 'Warn', 'Info', 'Hint' }

---What Neovim draws if the user has set nothing else.
local PREFIX, SPACING = '■', 4

---@param severity integer
---@param wanted any what the user has set: a severity, the least and the greatest one, or nothing
---@return boolean
local function is_wanted(severity, wanted)
  local function number(of)
    return type(of) == 'string' and vim.diagnostic.severity[of] or of
  end
  if type(wanted) == 'table' then
    -- (the most severe one has the smallest number)
    return severity <= number(wanted.min or #GROUPS) and severity >= number(wanted.max or 1)
  end
  return wanted == nil or severity == number(wanted)
end

---What the user has set for a handler; nil if it draws nothing.
---@param name string
---@param namespace integer
---@param buffer integer
---@return table|nil
local function setting(name, namespace, buffer)
  local value = (vim.diagnostic.config() or {})[name]
  if type(value) == 'function' then
    value = value(namespace, buffer)
  end
  return type(value) == 'table' and value or value and {} or nil
end

---@param buffer integer
---@param list table[] diagnostics
---@param given table
local function underline(buffer, list, given)
  for _, each in ipairs(list) do
    if is_wanted(each.severity, given.severity) then
      pcall(api.nvim_buf_set_extmark, buffer, drawn, each.lnum, each.col, {
        end_row = each.end_lnum,
        end_col = each.end_col,
        hl_group = 'DiagnosticUnderline' .. GROUPS[each.severity],
        strict = false,
      })
    end
  end
end

---The text at the end of a line: a sign for each diagnostic, and the last one's message.
---@param list table[] diagnostics of the line
---@param given table
---@return string[][]
local function chunks(list, given)
  local prefix = type(given.prefix) == 'string' and given.prefix or PREFIX
  local parts = { { (' '):rep(given.spacing or SPACING) } }
  for i, each in ipairs(list) do
    local message = given.format and given.format(each) or each.message
    local text = i == #list and ('%s %s'):format(prefix, (message:gsub('\n', '  '))) or prefix
    parts[#parts + 1] = { text, 'DiagnosticVirtualText' .. GROUPS[each.severity] }
  end
  return parts
end

---@param buffer integer
---@param list table[] diagnostics
---@param given table
local function write(buffer, list, given)
  local lines = {}
  for _, each in ipairs(list) do
    if is_wanted(each.severity, given.severity) then
      lines[each.lnum] = lines[each.lnum] or {}
      table.insert(lines[each.lnum], each)
    end
  end
  for row, of in pairs(lines) do
    local options = { hl_mode = 'combine', virt_text = chunks(of, given), strict = false }
    pcall(api.nvim_buf_set_extmark, buffer, drawn, row, 0, options)
  end
end

---Shows diagnostics in place of those that are shown.
---@param namespace integer
---@param buffer integer
---@param list table[]
local function show(namespace, buffer, list)
  api.nvim_buf_clear_namespace(buffer, drawn, 0, -1)
  local lines, words = setting('underline', namespace, buffer), setting('virtual_text', namespace, buffer)
  if lines then
    underline(buffer, list, lines)
  end
  if words then
    write(buffer, list, words)
  end
end

---Draws the diagnostics of a namespace, by the user's settings of Neovim's own handlers.
---@param namespace integer
function M.draw_for(namespace)
  vim.diagnostic.handlers[HANDLER] = {
    show = function(of, buffer, list)
      show(of, buffer, list)
    end,
    hide = function(of, buffer)
      if of == namespace and api.nvim_buf_is_loaded(buffer) then
        api.nvim_buf_clear_namespace(buffer, drawn, 0, -1)
      end
    end,
  }
  vim.diagnostic.config({ underline = false, virtual_text = false, [HANDLER] = true }, namespace)
end

return M

---Damaged places, and text that the document can't have, as diagnostics.
local underlines = require('legacy.underlines')

local M = {}

local namespace = vim.api.nvim_create_namespace('legacy')
underlines.draw_for(namespace)
local WIDTH = #'\239\191\189'

---@param from integer
---@param to integer
---@param row integer
---@param column integer
---@param encoding string
local function place(from, to, row, column, encoding)
  local bytes
  if to > from + 1 then
    bytes = ('bytes %d to %d are'):format(from, to - 1)
  elseif to > from then
    bytes = ('byte %d is'):format(from)
  else
    bytes = ('between bytes %d and %d is'):format(from - 1, from)
  end
  return {
    lnum = row,
    col = column,
    end_lnum = row,
    end_col = column + WIDTH,
    severity = vim.diagnostic.severity.WARN,
    source = 'legacy',
    message = ('%s no character of %s'):format(bytes, encoding),
  }
end

---@param damage integer[][] in the order of the text
---@param mirror legacy.Mirror
---@param encoding string
local function locate_damage(damage, mirror, encoding)
  local list, row, first = {}, 0, 0
  for i, it in ipairs(damage) do
    local from, to, line, character = unpack(it)
    while line >= first + mirror:line_count(row) do
      first = first + mirror:line_count(row)
      row = row + 1
    end
    list[i] = place(from, to, row, mirror:start(row, line - first) + character, encoding)
  end
  return list
end

---Removes the places from the screen until they are set again: while many lines change at once they would be at wrong ones.
---@param number integer the buffer
function M.hide(number)
  vim.diagnostic.hide(namespace, number)
end

---@class legacy.Refusal
---@field row integer the buffer's first row
---@field reason string

---@param number integer the buffer
---@param damage integer[][]
---@param mirror legacy.Mirror
---@param encoding string
---@param refusals legacy.Refusal[]
function M.set(number, damage, mirror, encoding, refusals)
  local list = locate_damage(damage, mirror, encoding)
  local rows = vim.api.nvim_buf_line_count(number)
  for _, it in ipairs(refusals) do
    list[#list + 1] = {
      lnum = math.min(it.row, rows - 1),
      col = 0,
      severity = vim.diagnostic.severity.ERROR,
      source = 'legacy',
      message = 'not in the file: ' .. it.reason,
    }
  end
  vim.diagnostic.set(namespace, number, list)
end

return M

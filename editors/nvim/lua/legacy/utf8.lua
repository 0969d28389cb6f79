---Bytes that aren't UTF-8: Neovim has them in a buffer's text too, for a while, if a paste comes in pieces that end inside a
---character.
local M = {}

---Bytes that aren't a character: from one up to another, counted from 0, and whether more bytes could make them one.
---@class legacy.Broken
---@field from integer
---@field to integer
---@field is_beginning boolean

---The bytes that continue a character: how many, and the least and the greatest that the first of them may be.
---@param lead integer
---@return integer, integer, integer
local function shape(lead)
  if lead < 0xC2 or lead > 0xF4 then
    return 0, 0, 0
  elseif lead < 0xE0 then
    return 1, 0x80, 0xBF
  elseif lead < 0xF0 then
    return 2, lead == 0xE0 and 0xA0 or 0x80, lead == 0xED and 0x9F or 0xBF
  end
  return 3, lead == 0xF0 and 0x90 or 0x80, lead == 0xF4 and 0x8F or 0xBF
end

---The byte after a character that begins at a byte above 127, or after what there is of one. Also whether it is whole, and
---otherwise whether more bytes could make it so.
---@param text string
---@param at integer from 1
---@return integer
---@return boolean is_whole
---@return boolean is_beginning
local function character(text, at)
  local more, least, most = shape(text:byte(at))
  if more == 0 then
    return at + 1, false, false
  end
  for i = 1, more do
    local byte = text:byte(at + i)
    if not byte or byte < least or byte > most then
      return at + i, false, not byte or byte < 0x80 or byte > 0xBF
    end
    least, most = 0x80, 0xBF
  end
  return at + more + 1, true, false
end

---All bytes of a text that aren't UTF-8.
---@param text string
---@return legacy.Broken[]
function M.find_broken(text)
  local list, at = {}, text:find('[\128-\255]')
  while at do
    local byte = text:byte(at)
    if not byte then
      break
    elseif byte < 128 then
      at = text:find('[\128-\255]', at)
    else
      local behind, is_whole, is_beginning = character(text, at)
      if not is_whole then
        list[#list + 1] = { from = at - 1, to = behind - 1, is_beginning = is_beginning }
      end
      at = behind
    end
  end
  return list
end

---@param text string
---@return boolean
function M.is_valid(text)
  return #M.find_broken(text) == 0
end

---A text without some of its bytes, and these.
---@param text string
---@param list legacy.Broken[]
---@return string
---@return string
function M.without(text, list)
  local kept, gone, from = {}, {}, 0
  for _, it in ipairs(list) do
    kept[#kept + 1] = text:sub(from + 1, it.from)
    gone[#gone + 1] = text:sub(it.from + 1, it.to)
    from = it.to
  end
  kept[#kept + 1] = text:sub(from + 1)
  return table.concat(kept), table.concat(gone)
end

---A character's name, or the values of bytes that aren't one.
---@param text string
---@return string
function M.name(text)
  if not M.is_valid(text) then
    return 'byte ' .. text:gsub('.', function(byte)
      return ('%02X '):format(byte:byte())
    end):sub(1, -2)
  end
  return ('U+%04X'):format(vim.fn.char2nr(text, 1))
end

return M

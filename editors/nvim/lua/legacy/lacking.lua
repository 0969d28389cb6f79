---Which characters an encoding lacks: the program is asked, once for each.
local utf8 = require('legacy.utf8')

---@class legacy.Lacking
---@field private document legacy.Document
---@field private encoding string|nil the one in force when they were asked for
---@field private known table<string, boolean> by characters, whether the encoding lacks them
---@field is_holding boolean whether some were held back
local Lacking = {}
Lacking.__index = Lacking

local CHARACTER = '[%z\1-\127\194-\244][\128-\191]*'

---@param document legacy.Document
---@return legacy.Lacking
function Lacking.new(document)
  return setmetatable({ document = document, known = {}, is_holding = false }, Lacking)
end

---@private
function Lacking:refresh()
  if self.encoding ~= self.document.encoding then
    self.encoding, self.known = self.document.encoding, {}
  end
end

---Asks for all characters of texts that aren't known yet.
---@param texts string[]
---@return boolean whether the encoding lacks one that wasn't known
function Lacking:learn(texts)
  self:refresh()
  local list, is_listed = {}, {}
  for _, text in ipairs(texts) do
    for character in text:gmatch(CHARACTER) do
      if self.known[character] == nil and not is_listed[character] then
        list[#list + 1], is_listed[character] = character, true
      end
    end
  end
  local lacks = self.document:lacks(list)
  for _, character in ipairs(list) do
    self.known[character] = lacks[character] or false
  end
  return next(lacks) ~= nil
end

---The characters of a text that the encoding is known to lack, in order.
---@param text string
---@return string[]
function Lacking:of(text)
  local list = {}
  if next(self.known) then
    for character in text:gmatch(CHARACTER) do
      list[#list + 1] = self.known[character] and character or nil
    end
  end
  return list
end

---A text without these.
---@param text string
---@return string
function Lacking:without(text)
  return (text:gsub(CHARACTER, function(character)
    return self.known[character] and '' or nil
  end))
end

---Edits without what the encoding is known to lack. One of which nothing is left to put in takes nothing out either.
---@param edits legacy.Edit[]
---@return legacy.Edit[]
function Lacking:filter_edits(edits)
  self:refresh()
  if not next(self.known) then
    return edits
  end
  local list = {}
  for _, edit in ipairs(edits) do
    local text = self:without(edit.text)
    self.is_holding = self.is_holding or text ~= edit.text
    if text == edit.text then
      list[#list + 1] = edit
    elseif text ~= '' then
      list[#list + 1] = vim.tbl_extend('force', edit, { text = text })
    end
  end
  return list
end

---How characters are called, each once: the first ones, and how many more there are.
---@param characters string[]
---@param most integer
---@return string[]
---@return integer
function Lacking.names(characters, most)
  local names, is_named, count = {}, {}, 0
  for _, character in ipairs(characters) do
    if not is_named[character] then
      is_named[character], count = true, count + 1
      names[#names + 1] = count <= most and utf8.name(character) or nil
    end
  end
  return names, count - #names
end

return Lacking

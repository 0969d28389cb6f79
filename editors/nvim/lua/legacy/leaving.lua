---What a buffer has and its document can't: it is named, and marked or taken back. Other text that was typed stays.
local diff = require('legacy.diff')
local messages = require('legacy.messages')
local mirrors = require('legacy.mirror')
local utf8 = require('legacy.utf8')

---@class legacy.Leaving
---@field is_waiting boolean whether the beginning of a character waits for its rest
---@field private buffer legacy.Buffer
---@field private lacking legacy.Lacking
---@field private edits legacy.Edit[] that would make the document's text that of the buffer, that of the last place first
---@field private refused legacy.Refused[] those of them that were refused
---@field private waits boolean whether beginnings of characters wait
local Leaving = {}
Leaving.__index = Leaving

---The register in which text is that was taken back, and how many characters a message names.
local REGISTER, MOST_NAMES = '-', 5

---@param buffer legacy.Buffer
---@param lacking legacy.Lacking
---@param lines string[] the buffer's
---@param refused legacy.Refused[]
---@param waits boolean whether beginnings of characters wait for their rest
---@return legacy.Leaving
function Leaving.new(buffer, lacking, lines, refused, waits)
  local self = setmetatable({ buffer = buffer, lacking = lacking, refused = refused, waits = waits }, Leaving)
  self.edits = diff.edits(buffer.mirror.lines, lines, nil, false)
  self.is_waiting = false
  for _, edit in ipairs(self.edits) do
    self.is_waiting = self.is_waiting or self:split(edit) ~= ''
  end
  return self
end

---The bytes of an edit that wait, and those of it that are refused.
---@private
---@param edit legacy.Edit
---@return string
---@return string
function Leaving:split(edit)
  local waiting = vim.tbl_filter(function(it)
    return it.is_beginning and self.waits
  end, utf8.find_broken(edit.text))
  local refused, bytes = utf8.without(edit.text, waiting)
  return bytes, refused
end

---Why text is refused.
---@private
---@param text string
---@param edit legacy.Edit
---@return string
function Leaving:reason(text, edit)
  local encoding = self.buffer.document.encoding
  local lacking = self.lacking:of(text)
  if #lacking > 0 then
    local names, more = self.lacking.names(lacking, MOST_NAMES)
    return messages.lacking(names, more, encoding)
  elseif not utf8.is_valid(text) then
    return messages.refusal({ fault = 'BadJson' }, encoding)
  end
  for _, it in ipairs(self.refused) do
    if it.edit.row == edit.row or #self.refused == 1 then
      return messages.refusal(it.reply, encoding)
    end
  end
  return messages.refusal(self.refused[1] and self.refused[1].reply or { fault = 'NotKept' }, encoding)
end

---@return legacy.Refusal[] with the buffer's rows
function Leaving:refusals()
  local list, moved = {}, 0
  for i = #self.edits, 1, -1 do
    local edit = self.edits[i]
    local waiting, text = self:split(edit)
    if text ~= '' or waiting == '' then
      list[#list + 1] = { row = edit.row + moved, reason = self:reason(text, edit) }
    end
    moved = moved + select(2, edit.text:gsub('\n', '')) - (edit.end_row - edit.row)
  end
  return list
end

---Makes the buffer's text the document's, except for what waits. Says what is taken back and where it is.
function Leaving:take_back()
  local kept, parts, reasons, is_said = {}, {}, {}, {}
  for _, edit in ipairs(self.edits) do
    local waiting, text = self:split(edit)
    if waiting ~= '' then
      local row, column = edit.end_row, edit.end_column
      kept[#kept + 1] = { row = row, column = column, end_row = row, end_column = column, text = waiting }
    end
    if text ~= '' or waiting == '' then
      table.insert(parts, 1, text)
    end
  end
  if #parts == 0 then
    return
  end
  local all = table.concat(parts, '')
  self.buffer:show_lines(mirrors.apply_edits(self.buffer.mirror.lines, kept))
  for _, it in ipairs(self:reasons(all)) do
    if not is_said[it] then
      reasons[#reasons + 1], is_said[it] = it, true
    end
  end
  local where = ''
  if vim.fn.strchars(all) > 1 then
    vim.fn.setreg(REGISTER, all)
    where = ('; it is in register %s'):format(REGISTER)
  end
  messages.warn(('taken back: %s%s'):format(table.concat(reasons, '; '), where))
end

---All reasons for which something is taken back.
---@private
---@param all string what is
---@return string[]
function Leaving:reasons(all)
  local encoding, list = self.buffer.document.encoding, {}
  local names, more = self.lacking.names(self.lacking:of(all), MOST_NAMES)
  if #names > 0 then
    list[1] = messages.lacking(names, more, encoding)
  end
  if not utf8.is_valid(all) then
    list[#list + 1] = messages.refusal({ fault = 'BadJson' }, encoding)
  end
  for _, it in ipairs(self.refused) do
    list[#list + 1] = messages.refusal(it.reply, encoding)
  end
  return list
end

return Leaving

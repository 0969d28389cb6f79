---What refusals mean, in sentences.
local uv = vim.uv or vim.loop

local M = {}

---@type table<string, fun(reply: table, encoding: string): string>
local reasons = {
  Unencodable = function(reply, encoding)
    return ("U+%04X isn't in %s"):format(reply.code_point, encoding)
  end,
  NotKept = function(_, encoding)
    return ('%s would read these bytes, or those around them, as another text'):format(encoding)
  end,
  SplitsItem = function(_, encoding)
    return ('a pair of bytes in %s is two characters, which stay together'):format(encoding)
  end,
  NoEncoder = function(_, encoding)
    return ("no text can be put into %s"):format(encoding)
  end,
  TooLarge = function()
    return 'the document would be longer than the program takes'
  end,
  LineTooLong = function()
    return 'the text is longer than a command takes'
  end,
  BadJson = function()
    return "the text isn't Unicode"
  end,
  OutOfMemory = function()
    return 'the program has no memory left'
  end,
}

---Why a change was refused.
---@param reply table
---@param encoding string the encoding in force
---@return string
function M.refusal(reply, encoding)
  local reason = reasons[reply.fault]
  return reason and reason(reply, encoding) or reply.fault
end

---That an encoding lacks characters.
---@param names string[] of the first ones
---@param more integer how many others there are
---@param encoding string
---@return string
function M.lacking(names, more, encoding)
  local list = table.concat(names, ', ') .. (more > 0 and (' and %d more'):format(more) or '')
  return ("%s %s in %s"):format(list, #names + more > 1 and "aren't" or "isn't", encoding)
end

---Why an encoding's index files weren't found.
---@param settings legacy.Settings
---@return string
local function no_index(settings)
  local folder = settings.indexes
  if not folder then
    return "it needs index files, and the setting 'indexes' names no folder"
  elseif vim.fn.isdirectory(folder) == 0 then
    return ("it needs index files, and '%s' is no folder"):format(folder)
  elseif vim.fn.empty(vim.fn.glob(folder .. '/index-*.txt')) == 1 then
    return ("it needs index files, and the folder '%s' has none"):format(folder)
  end
  return ("the folder '%s' hasn't got all its index files"):format(folder)
end

---Why a document wasn't opened.
---@param reply table
---@param label string
---@param size integer bytes of the file
---@param settings legacy.Settings
---@return string
function M.opening(reply, label, size, settings)
  if reply.encoding == 'replacement' then
    return ("'%s' is an encoding that nothing is read in"):format(label)
  elseif reply.fault == 'UnknownLabel' then
    local hint = settings.labels and '' or ": without a label file the Encoding Standard's 40 names are all"
    return ("'%s' is no encoding%s"):format(label, hint)
  elseif reply.fault == 'NoIndex' then
    return ("'%s' can't be opened: %s"):format(label, no_index(settings))
  elseif reply.fault == 'TooLarge' then
    return ('the file has %d bytes, more than the program takes'):format(size)
  elseif reply.fault == 'OtherEncoding' then
    return ('another editor has opened the file, in %s'):format(reply.given)
  elseif reply.fault == 'TooManyDocuments' then
    return 'the program has no room for another document; :LegacyDocuments lists those that are open'
  elseif reply.fault == 'OutOfMemory' then
    return 'the program has no memory left for the file'
  end
  return 'the program refuses the document: ' .. reply.fault
end

---How many other editors have a file open.
---@param number integer
---@return string
function M.others(number)
  if number == 0 then
    return 'no other editor has the file open any more'
  end
  return number == 1 and 'another editor has the file open' or ('%d other editors have the file open'):format(number)
end

---Milliseconds, of one each, in which Neovim may come to wait for a key.
local LOOKS = 300

---The beginning of a text for which the last line of the screen has room.
---@param text string
---@return string
local function short(text)
  local room = vim.v.echospace
  if vim.fn.strdisplaywidth(text) <= room then
    return text
  end
  return vim.fn.strcharpart(text, 0, math.max(room - 3, 0)) .. '...'
end

---Has an error take one line, which Neovim shows on several where it is an autocommand's, and then waits for a key. All of it
---is in |:messages|.
---@param text string
---@param group string
function M.calm(text, group)
  local timer, looks = uv.new_timer(), 0
  timer:start(1, 1, function()
    looks = looks + 1
    local is_waiting = vim.api.nvim_get_mode().mode == 'r'
    if is_waiting then
      vim.api.nvim_input('<CR>')
      vim.schedule(function()
        vim.cmd('redraw')
        vim.api.nvim_echo({ { short(text), group } }, false, {})
      end)
    end
    if is_waiting or looks == LOOKS then
      timer:close()
    end
  end)
end

---Shows a text on one line. All of it is in |:messages|. (Behind `redraw` a second message isn't below the first.)
---@param text string
---@param group string|nil
local function show(text, group)
  text = 'legacy: ' .. text
  vim.cmd('redraw')
  if short(text) ~= text then
    -- (it is shown within this call that it waits for a key)
    M.calm(text, group or 'Normal')
  end
  vim.api.nvim_echo({ { text, group } }, true, {})
end

---Shows a message.
---@param text string
function M.tell(text)
  show(text, nil)
end

---Shows lines.
---@param lines string[]
function M.list(lines)
  vim.api.nvim_echo({ { table.concat(lines, '\n') } }, true, {})
end

---Shows a warning.
---@param text string
function M.warn(text)
  show(text, 'WarningMsg')
end

return M

---What a Neovim that was killed has left unsaved: it is offered, and taken, compared or dropped.
local Document = require('legacy.document')
local diff = require('legacy.diff')
local journals = require('legacy.journal')
local messages = require('legacy.messages')
local mirrors = require('legacy.mirror')
local splicing = require('legacy.splices')
local task = require('legacy.task')

local api = vim.api

local M = {}

---How often the document is made the one that was left, where other editors are first.
local TRIES = 10

---What was left of a buffer's file, the last first. What the document has already is left out.
---@param buffer legacy.Buffer
---@return legacy.Unsaved[]
local function list_missing(buffer)
  local list = {}
  for _, unsaved in ipairs(journals.list_unsaved(buffer.path)) do
    if unsaved.bytes == buffer.document.bytes and #unsaved.edits == 0 then
      journals.drop(unsaved)
    else
      list[#list + 1] = unsaved
    end
  end
  return list
end

---Says that something was left.
---@param buffer legacy.Buffer
function M.offer(buffer)
  local unsaved = list_missing(buffer)[1]
  if unsaved then
    -- (short enough for a terminal of 80 columns)
    local time = vim.fn.strftime('%m-%d %H:%M', unsaved.time)
    messages.warn(('unsaved edits (%s): :LegacyRecover [compare|discard]'):format(time))
  end
end

---Makes a document's bytes those that were left, and its buffer's text theirs, as one step of undo.
---@param buffer legacy.Buffer
---@param bytes string
local function take_bytes(buffer, bytes)
  local document, splice = buffer.document, nil
  for _ = 1, TRIES do
    splice = splicing.between(document.bytes, bytes)
    if document.bytes == bytes or document:splice({ splice }) then
      break
    end
    buffer.sharing:look_alone()
  end
  local now = mirrors.new(document:text())
  if now.line_end ~= buffer.mirror.line_end then
    buffer.mirror = now
    buffer:fill()
    return
  end
  local edits = diff.edits(buffer.mirror.lines, now.lines, nil, false)
  buffer:show_lines(now.lines)
  if #edits > 0 then
    buffer.history:begin(buffer.history:key(buffer:undo_tree()))
    buffer.sending:record(splice, buffer.mirror:rows_of(edits))
  end
end

---Takes what was left: the bytes, and then text that wasn't in the document yet, as if it was typed.
---@param buffer legacy.Buffer
---@param unsaved legacy.Unsaved
local function take(buffer, unsaved)
  buffer.turns:take(function()
    buffer.sending:sync()
    take_bytes(buffer, unsaved.bytes)
    buffer:keep()
    vim.bo[buffer.number].modified = buffer:is_unwritten()
    buffer:draw()
  end)
  if #unsaved.edits > 0 then
    local lines, ended = mirrors.display(mirrors.apply_edits(buffer.mirror.lines, unsaved.edits))
    api.nvim_buf_set_lines(buffer.number, 0, -1, true, lines)
    vim.bo[buffer.number].endofline = ended
  end
  buffer.turns:take(function()
    buffer.sending:sync()
  end)
end

---Shows what was left beside the buffer, with the differences.
---@param buffer legacy.Buffer
---@param unsaved legacy.Unsaved
local function compare(buffer, unsaved)
  local document = assert(Document.open(buffer.document.connect, unsaved.label, unsaved.bytes, buffer.settings.part))
  local lines = mirrors.new(document:text()).lines
  document:close()
  lines = mirrors.display(mirrors.apply_edits(lines, unsaved.edits))
  vim.cmd('vertical new')
  local options = vim.bo
  options.buftype, options.bufhidden, options.swapfile = 'nofile', 'wipe', false
  api.nvim_buf_set_lines(0, 0, -1, true, lines)
  options.modifiable = false
  vim.cmd('diffthis | wincmd p | diffthis')
end

local WAYS = { [''] = take, recover = take, compare = compare, discard = function() end }

---The words that the command takes.
M.words = { 'recover', 'compare', 'discard' }

---What `:LegacyRecover` does.
---@param buffer legacy.Buffer
---@param word string
function M.run(buffer, word)
  local way = WAYS[word]
  if not way then
    error('legacy: :LegacyRecover takes recover, compare or discard', 0)
  end
  local unsaved = list_missing(buffer)[1]
  if not unsaved then
    error('legacy: nothing of this file was left unsaved', 0)
  end
  task.await(function()
    way(buffer, unsaved)
  end)
  if way ~= compare then
    journals.drop(unsaved)
  end
end

return M

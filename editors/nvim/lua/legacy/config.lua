---The plugin's settings: those of `setup`, or else the global variables `g:legacy_NAME`, or else the defaults.
local lists = require('legacy.lists')
local record = require('legacy.record')

local M = {}

---@class legacy.Settings
---@field gate string the program
---@field indexes string|nil the folder of the index files
---@field socket string|nil where a program listens that editors share; where it isn't given, each has its own
---@field record string|nil the file in which a program keeps a record that is started to listen there
---@field is_own_record boolean|nil whether that is the plugin's own file, which no setting names
---@field labels string|nil the label file; where it isn't given, `encodings.json` in `indexes`, if it is there
---@field refused 'revert'|'mark' what becomes of text that the document can't have
---@field silent 'hold'|'alone' what is done where the program gives no reply for long
---@field memory integer|nil MiB that the program may have with all its documents
---@field timeout integer milliseconds to wait for a reply
---@field keep boolean whether what isn't saved is kept in a file
---@field part integer bytes of a document that one command carries
---@field marks integer how many damaged places are shown

---@type legacy.Settings
local defaults = {
  gate = nil,
  indexes = nil,
  labels = nil,
  socket = nil,
  record = nil,
  memory = nil,
  refused = 'revert',
  silent = 'hold',
  keep = true,
  timeout = 60000,
  -- A command's line has room for 4,194,304 bytes, and base64 makes four of three.
  part = 3000000,
  marks = 1000,
}

local TYPES = {
  gate = 'string',
  indexes = 'string',
  labels = 'string',
  socket = 'string',
  record = 'string',
  memory = 'number',
  refused = 'string',
  silent = 'string',
  keep = 'boolean',
  timeout = 'number',
  part = 'number',
  marks = 'number',
}

---The words that a setting may be.
local WORDS = { refused = { 'revert', 'mark' }, silent = { 'hold', 'alone' } }

---What `setup` was given.
local given = {}

---Names that editors use and that aren't labels of the Encoding Standard, by the encodings that they mean.
local NAMES = {
  ['Shift_JIS'] = { 'cp932' },
  GBK = { 'cp936', 'euc-cn' },
  ['EUC-KR'] = { 'cp949', 'euckr' },
  Big5 = { 'cp950' },
  ['EUC-JP'] = { 'eucjp' },
  ['UTF-8'] = { 'utf8' },
  ['UTF-16LE'] = { 'utf16' },
}

---The encodings by these names.
M.aliases = {}
for encoding, names in pairs(NAMES) do
  for _, name in ipairs(names) do
    M.aliases[name] = encoding
  end
end

---@param settings table|nil
function M.setup(settings)
  for name, value in pairs(settings or {}) do
    if type(value) ~= TYPES[name] then
      error(("legacy: setup has no setting '%s' of type %s"):format(name, type(value)), 0)
    end
  end
  for name, words in pairs(WORDS) do
    if settings and settings[name] and not vim.tbl_contains(words, settings[name]) then
      error(("legacy: setting '%s' is '%s' or '%s'"):format(name, words[1], words[2]), 0)
    end
  end
  if settings and settings.memory and not (settings.memory >= 1 and settings.memory < 1e9) then
    error("legacy: setting 'memory' is a number of MiB, from 1 on", 0)
  end
  given = settings or {}
end

---A variable of the environment, where it isn't empty.
---@param name string
---@return string|nil
local function variable(name)
  local value = os.getenv(name)
  return value ~= '' and value or nil
end

---The folder of the index files if no setting names one: the command `legacy` finds the same one.
---@return string|nil
local function standard()
  local named = variable('GATE_INDEXES')
  local folder = (variable('XDG_DATA_HOME') or '~/.local/share') .. '/gate/standard'
  local is_there = vim.fn.filereadable(vim.fn.expand(folder) .. '/index-jis0208.txt') == 1
  return named or is_there and folder or nil
end

---@return legacy.Settings
function M.get()
  local found = {}
  for name in pairs(TYPES) do
    local value = given[name]
    if value == nil then
      value = vim.g['legacy_' .. name]
    end
    if value == nil then
      value = defaults[name]
    end
    found[name] = value
  end
  found.gate = found.gate or variable('GATE') or 'gate'
  found.indexes = found.indexes or standard()
  if found.indexes then
    found.indexes = vim.fn.expand(found.indexes)
    local labels = found.indexes .. '/encodings.json'
    if not found.labels and vim.fn.filereadable(labels) == 1 then
      found.labels = labels
    end
  end
  found.gate = vim.fn.expand(found.gate)
  found.socket = found.socket and vim.fn.expand(found.socket)
  if found.record == '' then
    found.record = nil
  elseif found.record then
    found.record = vim.fn.expand(found.record)
  elseif found.socket then
    found.record = record.default(found.socket)
    found.is_own_record = found.record ~= nil
  end
  return found
end

---How many seconds a program in the background outlives the last editor.
local IDLE = '60'

---What is no folder has no index files.
local NO_FOLDER = '/dev/null'

---The command line that the settings ask for.
---@param settings legacy.Settings
---@return string[]
function M.words(settings)
  if not settings.indexes and not settings.socket then
    return { settings.gate }
  end
  local how = settings.socket and 'serve' or 'stdio'
  local words = { settings.gate, how, '--indexes', settings.indexes or NO_FOLDER }
  if settings.labels then
    lists.append(words, { '--labels', vim.fn.expand(settings.labels) })
  end
  if settings.socket then
    if settings.record then
      lists.append(words, { '--resume', settings.record })
    end
    if settings.is_own_record then
      -- (index files that are newer don't stop who edits)
      words[#words + 1] = '--other-files'
    end
    lists.append(words, { '--socket', settings.socket, '--idle', IDLE })
  end
  return words
end

return M

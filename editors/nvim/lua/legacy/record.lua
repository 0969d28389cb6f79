---The record of a server that editors share. It has each command that the server took, so it tells what became of one whose
---reply was lost.
local base64 = require('legacy.base64')
local presence = require('legacy.presence')
local state_folder = require('legacy.state_folder')
local task = require('legacy.task')
local uv = vim.uv or vim.loop

local M = {}

local FOLDER = 'records'

---Milliseconds for which a record is played at most, and bytes of one that is short.
local LIMIT, ROOM = 30000, 65536

---An input that is empty.
local NOTHING = '/dev/null'

---Where the record of a server at a socket is kept if no setting names one. Nil if no file can be made there.
---@param socket string
---@return string|nil
function M.default(socket)
  return state_folder.make(FOLDER) and ('%s/%s'):format(state_folder.path(FOLDER), vim.fn.sha256(socket)) or nil
end

---What a record was compacted from, if it was.
---@param path string
---@return string
local function before_compaction(path)
  return path .. '.uncompacted'
end

---The words of another job over the record of a server, and its file; nothing if it keeps none.
---@param words string[] that start the server
---@param job string
---@return string[]|nil
---@return string|nil
local function words_of(words, job)
  local found, path = { words[1], job }, nil
  for i, word in ipairs(words) do
    if word == '--indexes' or word == '--labels' then
      vim.list_extend(found, { word, words[i + 1] })
    elseif word == '--resume' then
      path = words[i + 1]
    end
  end
  return path and found, path
end

---What a shell does that takes texts, one a line, and the words of a program: prints the lines that have one of them, and at last
---the status. (The program prints all that clients of the server were ever answered.)
local SEARCH = 'texts=$1; shift; { "$@"; echo "status $?"; } 2>/dev/null | grep -F -e "$texts" -e "status "'

---The statuses with which all of a record was played: also if its last line is torn off, or still being written.
local WHOLE = { ['status 0'] = true, ['status 2'] = true }

---The words that print the replies to some commands.
---@param words string[] that print all
---@param ids integer[]
---@return string[]
local function searching(words, ids)
  local texts = vim.tbl_map(function(id)
    return ('"id":%.0f'):format(id)
  end, ids)
  return vim.list_extend({ 'sh', '-c', SEARCH, 'sh', table.concat(texts, '\n') }, words)
end

---Runs a program over a file.
---@param words string[]
---@param path string what is its standard input
---@return string|nil what it prints, if it ends in time
local function run(words, path)
  local descriptor = uv.fs_open(path, 'r', 0)
  if not descriptor then
    return nil
  end
  local stdout, process, printed = uv.new_pipe(false), nil, {}
  local has_ended = task.wait(function(resume)
    local left = 2
    local function over()
      left = left - 1
      if left == 0 then
        resume(true)
      end
    end
    process = uv.spawn(words[1], { args = vim.list_slice(words, 2), stdio = { descriptor, stdout } }, function()
      process:close()
      over()
    end)
    stdout:read_start(function(_, data)
      if data then
        printed[#printed + 1] = data
      else
        stdout:close()
        over()
      end
    end)
    if not process then
      resume(false)
    end
  end, LIMIT)
  uv.fs_close(descriptor)
  if process and not process:is_closing() then
    process:kill('sigkill')
  elseif not process then
    stdout:close()
  end
  return has_ended and table.concat(printed) or nil
end

---What a record says of an edit, and of a command of before. Nothing if it can't be played.
---@param words string[] that play it
---@param path string
---@param ids integer[] of the edit, which was sent as often
---@param known integer|nil of the other command
---@return boolean whether the edit was made
---@return boolean whether the record has the other command
local function look_up(words, path, ids, known)
  local is_made, has_known, last = false, false, ''
  local printed = run(searching(words, vim.list_extend({ known or 0 }, ids)), path) or ''
  for line in printed:gmatch('([^\n]*)\n') do
    local id = tonumber(line:match('"id":(%d+)'))
    is_made = is_made or vim.tbl_contains(ids, id) and not line:find('"fault":', 1, true)
    has_known, last = has_known or id == known, line
  end
  return is_made, has_known and WHOLE[last] ~= nil
end

---Whether a server has made one of some edits, by its record. Nil if that isn't known: if it keeps no record, or if this one
---hasn't got a command of before either. What wasn't sent at all wasn't made.
---@param words string[] that start the server
---@param ids integer[] of one edit, which was sent as often
---@param known integer|nil of a command of before that was accepted
---@return boolean|nil
function M.has_made(words, ids, known)
  local trace, path = words_of(words, 'trace')
  if #ids == 0 then
    return false
  elseif not trace then
    return nil
  end
  local has_known = false
  for _, each in ipairs({ path, before_compaction(path) }) do
    local is_made, is_of_server = look_up(trace, each, ids, known)
    if is_made then
      return true
    end
    has_known = has_known or is_of_server
  end
  if has_known then
    return false
  end
end

---The record of a server, if it is one that no setting names.
---@param words string[] that start the server
---@return string|nil
local function own_path(words)
  local _, path = words_of(words, '')
  return path and vim.startswith(path, state_folder.path(FOLDER) .. '/') and path or nil
end

---The words that make a record as short as the documents that are open in it.
---@param words string[] that start the server
---@param path string
---@return string[]
local function compacting(words, path)
  local folder = vim.fn.fnamemodify(path, ':h')
  local found = vim.tbl_map(function(word)
    -- (`compact` wants a folder that exists; this one has no index files either)
    return word == NOTHING and folder or word
  end, words_of(words, 'compact'))
  return vim.list_extend(found, { '--other-files', path })
end

---Has a record without a server be as short as the documents that are open in it.
---@param words string[] that start the server
function M.compact(words)
  local path = own_path(words)
  local stat = path and uv.fs_stat(path)
  if stat and stat.size > ROOM then
    run(compacting(words, path), NOTHING)
  end
end

---Seconds between two looks for whether a server still runs.
M.PAUSE = 5

---A shell's script. Its arguments are seconds, a server's number, its socket, its record, the list of editors, and the command that
---compacts the record. Once the server has ended in order, it compacts the record, and removes it if no document of a file is open
---in it. (A program that takes the record in between has it locked, and keeps it.)
local TIDY = [[
pause=$1 server=$2 socket=$3 record=$4 list=$5; shift 5
while kill -0 "$server" 2>/dev/null; do sleep "$pause"; done
[ -e "$socket" ] || "$@" </dev/null >/dev/null 2>&1 || exit
[ -e "$socket" ] || flock -n "$record" sh -c 'grep -v "^adopt $1 " "$0" | grep -q "^adopt " || rm -f "$0" "$0.uncompacted"' "$record" "$list"
]]

---Has the record of a server that was started be removed after its end, if no document is open in it then.
---@param words string[] that start the server
---@param number integer its process
---@param socket string
function M.tidy(words, number, socket)
  local path = own_path(words)
  if path then
    local list = base64.encode(presence.LIST)
    local all = { '-c', TIDY, 'sh', tostring(M.PAUSE), tostring(number), socket, path, list }
    local process
    process = uv.spawn('sh', { args = vim.list_extend(all, compacting(words, path)), detached = true }, function()
      process:close()
    end)
    if process then
      process:unref()
    end
  end
end

---Removes what a record was compacted from.
---@param words string[] that start the server
function M.forget(words)
  local path = own_path(words)
  if path then
    uv.fs_unlink(before_compaction(path))
  end
end

---Puts a record aside which no server takes.
---@param words string[] that start the server
---@return string|nil path where it is then; nil if it stays
function M.put_aside(words)
  local path = own_path(words)
  local aside = path and path .. '.refused'
  return path and uv.fs_rename(path, aside) and aside or nil
end

return M

---What the tests share: counting, files, buffers and their documents.
local legacy = require('legacy')

local M = {
  -- The milliseconds within which what is to come comes, on a machine that has much else to do.
  LIMIT = 100000,
  work = os.getenv('LEGACY_TEST_WORK'),
  gate = os.getenv('LEGACY_TEST_GATE'),
  indexes = os.getenv('LEGACY_TEST_INDEXES'),
}

if M.indexes == '' then
  M.indexes = nil
end

-- What a user's environment names is found by the test of that alone.
vim.env.GATE, vim.env.GATE_INDEXES, vim.env.XDG_DATA_HOME = nil, nil, M.work
vim.env.XDG_STATE_HOME = M.work .. '/state'

local passed, failed, skipped = 0, 0, 0

---Whether each test's time is printed.
local SAYS_TIMES = os.getenv('LEGACY_TEST_TIMES') == '1'

---Runs a test; one that needs index files where there are none is skipped.
---@param name string
---@param needs_indexes boolean
---@param call fun()
function M.test(name, needs_indexes, call)
  if needs_indexes and not M.indexes then
    skipped = skipped + 1
    return
  end
  M.settings({})
  local place, began = '', vim.loop.hrtime()
  local done, why = xpcall(call, function(reason)
    place = debug.traceback():match('[%w_]+_test%.lua:%d+') or ''
    return reason
  end)
  pcall(vim.cmd, 'silent! %bwipeout!')
  if SAYS_TIMES then
    io.stdout:write(('%6.1f s  %s\n'):format((vim.loop.hrtime() - began) / 1e9, name))
  end
  if done then
    passed = passed + 1
  else
    failed = failed + 1
    io.stdout:write('FAILED ', name, ' (', place, '): ', tostring(why), '\n')
  end
end

---@return boolean whether none failed
function M.summary()
  if skipped > 0 then
    io.stdout:write(('%d skipped, which need index files\n'):format(skipped))
  end
  io.stdout:write(('%d passed, %d failed\n'):format(passed, failed))
  return failed == 0
end

---Compares, and shows both where they differ.
function M.same(got, wanted, what)
  if not vim.deep_equal(got, wanted) then
    error(('%s: %s in place of %s'):format(what or 'value', vim.inspect(got), vim.inspect(wanted)), 2)
  end
end

---Sets the plugin up over the tested program.
---@param settings table
function M.settings(settings)
  legacy.setup(vim.tbl_extend('force', { gate = M.gate, indexes = M.indexes }, settings))
end

function M.read(path)
  local file = assert(io.open(path, 'rb'))
  local bytes = file:read('*a')
  file:close()
  return bytes
end

function M.write(path, bytes)
  local file = assert(io.open(path, 'wb'))
  file:write(bytes)
  file:close()
end

local files = 0

---Makes a file and opens it.
---@return string path
function M.open(label, bytes)
  files = files + 1
  local path = ('%s/%d.txt'):format(M.work, files)
  M.write(path, bytes)
  vim.cmd(('LegacyEdit %s %s'):format(label, path))
  M.buffer()
  return path
end

function M.buffer()
  return legacy.buffer(vim.api.nvim_get_current_buf())
end

---Whether something was edited that isn't sent yet.
function M.buffer_is_dirty()
  return M.buffer().dirty
end

---Sends what was edited, as happens by itself once Neovim is idle.
function M.sync()
  M.buffer():sync()
end

---Edits that a script makes are one undo step, unless it is ended.
function M.end_step()
  vim.bo.undolevels = vim.bo.undolevels
end

---Makes one edit by Normal mode's keys, an undo step of its own.
function M.keys(keys)
  M.end_step()
  vim.cmd('silent! normal! ' .. vim.api.nvim_replace_termcodes(keys, true, false, true))
  M.sync()
  M.end_step()
end

---Undoes or redoes so often.
function M.undo(times)
  for _ = 1, times or 1 do
    vim.cmd('silent undo')
    M.sync()
  end
end

function M.redo(times)
  for _ = 1, times or 1 do
    vim.cmd('silent redo')
    M.sync()
  end
end

function M.lines()
  return vim.api.nvim_buf_get_lines(0, 0, -1, true)
end

---The file's bytes behind a `:write`.
function M.written(path)
  vim.cmd('silent write')
  return M.read(path)
end

---Runs a command, and returns the error that it shows.
function M.failure(command)
  vim.v.errmsg = ''
  vim.cmd('silent! ' .. command)
  return vim.v.errmsg
end

---That a message has been shown that contains this text, or matches this pattern, since the last look.
---@param text string
---@param call fun()
---@param is_pattern boolean|nil
function M.said(text, call, is_pattern)
  vim.cmd('messages clear')
  call()
  local all = vim.fn.execute('messages')
  if not all:find(text, 1, not is_pattern) then
    error(('no message %q in %q'):format(text, all), 2)
  end
end

---That the buffer shows the program's text, and that the bytes kept here are the program's.
function M.agree(what)
  local buffer = M.buffer()
  local lines = M.lines()
  local text = buffer.document:text()
  local shown = table.concat(lines, buffer.mirror.line_end)
  if text ~= '' and vim.bo.endofline then
    shown = shown .. buffer.mirror.line_end
  end
  M.same(shown, text, what .. ', the text')
  M.same(buffer.document.bytes, buffer.document:source(), what .. ', the bytes kept')
end

---The files that were made, with their labels: name, label, whether index files are needed.
function M.files()
  local list = {}
  for line in M.read(M.work .. '/files/list'):gmatch('[^\n]+') do
    local name, label = line:match('^(%S+) (%S+)$')
    local path = ('%s/files/%s'):format(M.work, name)
    list[#list + 1] = {
      name = name,
      label = label,
      needs_indexes = not label:find('^utf'),
      before = M.read(path .. '.before'),
      after = M.read(path .. '.after'),
    }
  end
  return list
end

return M

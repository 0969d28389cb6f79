-- Runs all tests and ends Neovim, with a status that is 0 where none failed. An error outside a test would leave it
-- waiting for keys.
local harness = require('harness')

local only = os.getenv('LEGACY_TEST_ONLY')
local TESTS = only and vim.split(only, ' ') or {
  'parts_alone', 'saving', 'files', 'undo', 'line_ends', 'refusals', 'writing', 'program', 'budget', 'live', 'again', 'record', 'outcome',
  'unanswered', 'places', 'undo_others', 'paste', 'many', 'underlines', 'abandoned', 'silent', 'kept', 'messages', 'newer', 'typing', 'day',
}

local ran, why = xpcall(function()
  for _, name in ipairs(TESTS) do
    require(name .. '_test')
  end
end, debug.traceback)
if not ran then
  io.stdout:write(why, '\n')
end
vim.cmd(harness.summary() and ran and 'qall!' or 'cquit!')

---The program under a budget of memory: what would need more is refused, and every document stays, with its bytes.
local it = require('harness')
local Document = require('legacy.document')

---MiB that the program may have, bytes that each document would have, and how many there are (tests/hostile/budget.py has
---others).
local numbers = os.getenv('LEGACY_TEST_BUDGET') or '24 524288 16'
local memory, size, count = unpack(vim.tbl_map(tonumber, vim.split(numbers, ' ')))

---Documents beside that of the buffer.
---@param connection legacy.Connection
---@return legacy.Document[]
local function opened(connection)
  local documents = {}
  for i = 1, count - 1 do
    documents[i] = Document.open(function()
      return connection
    end, 'utf-8', '', 3000000)
  end
  it.same(#documents, count - 1)
  return documents
end

---Makes the documents longer by turns, until each is long enough or refused. An error and a letter in turn take the most
---memory.
---@param documents legacy.Document[]
---@param length integer of a part, in bytes
---@return integer how many are refused
local function grown(documents, length)
  local grow, refused, part = documents, 0, ('a\255'):rep(length / 2)
  while #grow > 0 do
    grow = vim.tbl_filter(function(document)
      if #document.bytes >= size then
        return false
      end
      local done, why = pcall(document.splice, document, { { at = #document.bytes, gone = '', put = part } })
      if not done then
        it.same(why, 'legacy: bytes were not put back: OutOfMemory')
        refused = refused + 1
      end
      return done
    end, grow)
  end
  return refused
end

it.test('documents that want more memory than the program may have', false, function()
  it.settings({ indexes = it.work, memory = memory })
  local path = it.open('utf-8', 'a\255\n')
  local connection = it.buffer().document.connection
  local documents = opened(connection)
  local refused, bytes = grown(documents, size / 32), 0
  it.same(refused > 0, true, 'some are refused')
  grown(documents, 2048)
  for _, document in ipairs(documents) do
    it.same(document:source() == document.bytes, true, 'a document has its bytes')
    bytes = bytes + #document.bytes
  end
  io.stdout:write(('%d documents of %d are refused, and all %d KiB of them read\n'):format(refused, count, bytes / 1024))
  local text = ('é'):rep(200000)
  it.said('the program has no memory left', function()
    vim.api.nvim_buf_set_lines(0, 0, 1, true, { text })
    it.sync()
  end)
  it.agree('an edit that is refused')
  it.same(it.written(path), 'a\255\n')
  it.same({ connection.ended, it.buffer().document.connection == connection }, { false, true }, 'the program ran on')
  for _, document in ipairs(documents) do
    document:close()
  end
  vim.api.nvim_buf_set_lines(0, 0, 1, true, { text })
  it.sync()
  it.same(it.written(path), text .. '\n')
end)

it.test('a program in the background that editors share', false, function()
  it.settings({ socket = it.work .. '/bounded.socket', memory = memory })
  it.open('utf-8', 'a\n')
  local server = it.buffer().document.connection.server
  local limits = it.read(('/proc/%d/limits'):format(server:get_pid()))
  server:kill('sigkill')
  it.same(tonumber(limits:match('Max address space +(%d+)')), memory * 1048576)
end)

it.test('a budget that is none, and a program that is none', false, function()
  for _, wrong in ipairs({ 0, -1, 1e9, 'a' }) do
    it.same(pcall(it.settings, { memory = wrong }), false)
  end
  it.settings({ gate = it.work .. '/no-gate', memory = memory })
  it.same(it.failure('LegacyEdit! utf-8 ' .. it.work .. '/budget.txt'), ("legacy: the program '%s/no-gate' can't be started "
    .. "(ENOENT: no such file or directory); the setting 'gate' names it"):format(it.work))
end)

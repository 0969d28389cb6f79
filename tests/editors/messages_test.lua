---What is said takes one line of the terminal, and nobody has to press a key for it.
local it = require('harness')
local terminal = require('terminal')

local PROMPT = 'Press ENTER'

---What the last line of a terminal comes to show.
---@param other table
---@param text string
local function says(other, text)
  it.same(vim.wait(20000, function()
    local screen = other.screen()
    return screen:find(text, 1, true) ~= nil and screen:find(PROMPT, 1, true) == nil
  end, 20), true, other.screen())
  local lines = vim.split(vim.trim(other.screen()), '\n')
  it.same(lines[#lines]:find(text, 1, true) ~= nil, true, other.screen())
  it.same(lines[#lines - 1]:find('legacy://', 1, true) ~= nil, true, 'the line above is the status line')
end

for _, row in ipairs({
  { 'a refused :w', ':w', 'legacy: not written: the file has changed since it was read', true },
  { 'a refused :wq', ':wq', 'legacy: not written: the file has changed since it was read', true },
  { 'a refused :e', ':edit legacy://no-such/x', "legacy: 'no-such' is no encoding" },
  { 'a refused :LegacyEdit', ':LegacyEdit no-such x', "legacy: 'no-such' is no encoding" },
  { 'a refused :LegacyRecover', ':LegacyRecover', 'legacy: nothing of this file was left unsaved' },
}) do
  local name, keys, text, is_changed = unpack(row)
  terminal.within(name .. ' is one line', 'utf-8', 'a\n', nil, function(other, path)
    other.type('rb')
    other.call('sync')
    if is_changed then
      it.write(path, 'of another program\n')
    end
    other.lua('vim.o.laststatus, vim.o.hidden = 2, true')
    other.press(keys, 'Enter')
    says(other, text)
    it.same(other.lua('return vim.v.errmsg'):find(text, 1, true) ~= nil, true)
    other.press(':let g:is_on = 1', 'Enter')
    it.same(vim.wait(it.LIMIT, function()
      return other.lua('return vim.g.is_on == 1')
    end, 20), true, 'what is typed next is a command')
  end)
end

terminal.within('what is taken back is one line', 'x-user-defined', 'a\n', nil, function(other)
  other.lua('vim.o.laststatus = 2')
  other.lua("vim.fn.setreg('a', 'あいうえお and more, which is long')")
  other.press('"ap')
  says(other, 'legacy: taken back: U+3042')
  it.same(other.lua([[return vim.fn.execute('messages')]]):find('register %-') ~= nil, true, 'all of it is in :messages')
end)

it.test('scripts have a refusal as an error', false, function()
  it.open('utf-8', 'a\n')
  local path = it.open('utf-8', 'a\n')
  it.keys('rb')
  it.write(path, 'of another program\n')
  local done, why = pcall(vim.cmd, 'write')
  it.same({ done, why:find('has changed since it was read', 1, true) ~= nil }, { false, true })
  vim.cmd([[
    let g:legacy_caught = 0
    try
      write
    catch /has changed since it was read/
      let g:legacy_caught = 1
    endtry
  ]])
  it.same(vim.g.legacy_caught, 1)
end)

terminal.summary()

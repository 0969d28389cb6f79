---Whether an edit was made whose reply was lost, without the program: `since` is answered here as the program does. Others edit
---before and after it, next to it and all around it.
local it = require('harness')
local outcome = require('legacy.outcome')
local splicing = require('legacy.splices')

---The bytes of letters in UTF-8 and, each between its escapes, in ISO-2022-JP.
local ENCODINGS = {
  ['UTF-8'] = { '日', '本', '語', 'a', 'b', ' ', '\n' },
  ['ISO-2022-JP'] = { '\27$BF|\27(B', '\27$BK\\\27(B', '\27$B8l\27(B', 'a', 'b', ' ', '\n' },
}

---Letters of this editor's edit, and how many of all edits may be in doubt, in percent.
local SIZES = { { 1, 30 }, { 3, 10 }, { 30, 1 } }

local ROUNDS = 300

---@param letters string[]
---@param marker string a letter of one editor alone
---@param count integer
---@return string[]
local function draw(letters, marker, count)
  local list = {}
  for i = 1, count do
    list[i] = math.random(3) == 1 and marker or letters[math.random(#letters)]
  end
  return list
end

---Letters in place of others at a place that is drawn.
---@param text string[]
---@param gone integer
---@param put string[]
---@param is_at_line boolean whether where a line begins
---@return string[] the text then
---@return legacy.Splice
local function edit(text, gone, put, is_at_line)
  local at = math.random(0, #text)
  while is_at_line and at > 0 and text[at] ~= '\n' do
    at = at - 1
  end
  local front, rest = vim.list_slice(text, 1, at), vim.list_slice(text, at + gone + 1)
  local taken = table.concat(vim.list_slice(text, at + 1, at + gone))
  local splice = { at = #table.concat(front), gone = taken, put = table.concat(put) }
  return vim.list_extend(vim.list_extend(front, put), rest), splice
end

---An edit of another editor: a script's mark, letters that are typed, letters that go, or a paste.
---@param text string[]
---@param letters string[]
local function edit_by_another(text, letters)
  local kind = math.random(10)
  if kind <= 4 then
    return edit(text, 0, { 'm' }, true)
  elseif kind <= 8 then
    return edit(text, 0, draw(letters, 'w', math.random(6)), false)
  elseif kind == 9 then
    return edit(text, math.random(3), {}, false)
  end
  return edit(text, 0, draw(letters, 'x', math.random(50, 200)), false)
end

---What the program says of the edits starting at one: the fewest bytes that one of them leaves are those that all leave.
---@param texts string[] the bytes before each edit, and at last those now
---@param splices legacy.Splice[]
---@param first integer
local function since(texts, splices, first)
  local before, now = texts[first] or texts[#texts], texts[#texts]
  local front, back = #before, #before
  for i = first, #splices do
    front, back = math.min(front, splices[i].at), math.min(back, #texts[i] - splices[i].at - #splices[i].gone)
  end
  local del, ins = math.max(#before - front - back, 0), math.max(#now - front - back, 0)
  return { at = (del > 0 or ins > 0) and front or 0, del = del, ins = ins, rev = #splices }
end

---@param letters string[]
---@param size integer letters of this editor's edit
---@param is_made boolean
---@param others integer edits of other editors that the server has accepted since
---@return boolean whether it is found out rightly
---@return boolean whether beyond doubt
local function try(letters, size, is_made, others)
  local text = draw(letters, 'w', math.random(20, 300))
  local after, mine = edit(text, math.random(0, 1), draw(letters, 'q', size), false)
  local before = table.concat(text)
  local texts, splices = { before }, {}
  local function make(now, splice)
    text, splices[#splices + 1], texts[#texts + 1] = now, splice, table.concat(now)
    it.same(splicing.apply_splices(texts[#texts - 1], { splice }), texts[#texts], 'an edit')
  end
  if is_made then
    make(after, mine)
  end
  for _ = 1, others do
    make(edit_by_another(text, letters))
  end
  local view = { rev = #splices, bytes = texts[#texts], since = { since(texts, splices, 1), since(texts, splices, 2) } }
  local said, is_certain = outcome.is_made(before, mine, 0, view)
  return said == is_made, is_certain
end

for name, letters in pairs(ENCODINGS) do
  for _, row in ipairs(SIZES) do
    local size, most = unpack(row)
    it.test(('whether an edit of %d letters was made in %s'):format(size, name), false, function()
      math.randomseed(size)
      local wrong, doubtful, silent = 0, 0, 0
      for round = 1, ROUNDS do
        local is_right, is_certain = try(letters, size, round % 2 == 0, math.random(0, 8))
        wrong = wrong + (is_right and 0 or 1)
        doubtful = doubtful + (is_certain and 0 or 1)
        silent = silent + (is_certain and not is_right and 1 or 0)
      end
      it.same(silent, 0, 'edits found out wrongly without a word')
      it.same(wrong <= ROUNDS * (size > 3 and 0 or 0.02), true, ('%d wrong ones of %d'):format(wrong, ROUNDS))
      it.same(doubtful <= ROUNDS * most / 100, true, ('%d doubtful ones of %d'):format(doubtful, ROUNDS))
    end)
  end
end

it.test('an edit of which nothing is left is said not to be made, and to be in doubt', false, function()
  -- Another one took out the letter.
  local view = { rev = 2, bytes = 'ab', since = { { at = 0, del = 0, ins = 0, rev = 2 }, { at = 1, del = 1, ins = 0, rev = 2 } } }
  local said, is_certain = outcome.is_made('ab', { at = 1, gone = '', put = 'q' }, 0, view)
  it.same({ said, is_certain }, { false, false }, 'a letter that went again')
  view = { rev = 3, bytes = 'xy', since = { { fault = 'Forgotten' }, { fault = 'Forgotten' } } }
  it.same({ outcome.is_made('ab', { at = 1, gone = 'b', put = 'c' }, 0, view) }, { false, false }, 'all of it is gone')
end)

it.test('of many differences lines tell, in doubt', false, function()
  local long = ('0123456789abcde\n'):rep(200)
  local now = 'one\n' .. long:upper() .. 'mine\n'
  local view = { rev = 2, bytes = now, since = { { fault = 'Forgotten' }, { fault = 'Forgotten' } } }
  it.same({ outcome.is_made('one\n', { at = 4, gone = '', put = 'mine\n' }, 0, view) }, { true, false })
end)

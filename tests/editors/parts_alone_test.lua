---Base64, differences, the mirror of a text and waits, without the program.
local base64 = require('legacy.base64')
local diff = require('legacy.diff')
local merge = require('legacy.merge')
local mirrors = require('legacy.mirror')
local past = require('legacy.past')
local splicing = require('legacy.splices')
local task = require('legacy.task')
local it = require('harness')

-- RFC 4648, section 10, and bytes with all bits.
it.test('base64', false, function()
  local rows = {
    { '', '' }, { 'f', 'Zg==' }, { 'fo', 'Zm8=' }, { 'foo', 'Zm9v' },
    { 'foob', 'Zm9vYg==' }, { 'fooba', 'Zm9vYmE=' }, { 'foobar', 'Zm9vYmFy' }, { '\255\254\0\251', '//4A+w==' },
  }
  for _, row in ipairs(rows) do
    it.same(base64.encode(row[1]), row[2])
    it.same(base64.decode(row[2]), row[1])
  end
end)

local function edits(old, new, hint, coarse)
  local list = {}
  for i, edit in ipairs(diff.edits(old, new, hint, coarse or false)) do
    list[i] = { edit.row, edit.column, edit.end_row, edit.end_column, edit.text }
  end
  return list
end

it.test('the smallest edits', false, function()
  local rows = {
    { 'nothing', { 'a' }, { 'a' }, {} },
    { 'a letter', { 'abc' }, { 'axc' }, { { 0, 1, 0, 2, 'x' } } },
    { 'two letters of a line', { 'abcdef' }, { 'axcdyf' }, { { 0, 4, 0, 5, 'y' }, { 0, 1, 0, 2, 'x' } } },
    { 'letters with a common byte', { 'aéb' }, { 'aèb' }, { { 0, 1, 0, 3, 'è' } } },
    { 'a line broken', { 'abcd', 'e' }, { 'ab', 'cd', 'e' }, { { 0, 2, 0, 2, '\n' } } },
    { 'lines joined', { 'ab', 'cd', 'e' }, { 'ab cd', 'e' }, { { 0, 2, 1, 0, ' ' } } },
    { 'a line deleted', { 'a', 'b', 'c' }, { 'a', 'c' }, { { 1, 0, 2, 0, '' } } },
    { 'the last line deleted', { 'a', 'b' }, { 'a' }, { { 0, 1, 1, 1, '' } } },
    { 'a line behind the last', { 'a' }, { 'a', 'b' }, { { 0, 1, 0, 1, '\nb' } } },
    { 'a line end behind the last', { 'a' }, { 'a', '' }, { { 0, 1, 0, 1, '\n' } } },
    { 'all deleted', { 'a', 'b', '' }, { '' }, { { 0, 0, 2, 0, '' } } },
    { 'NUL', { 'a\0b' }, { 'a\0\0c' }, { { 0, 2, 0, 3, '\0c' } } },
    { 'far lines', { 'a', 'b', 'c', 'd' }, { 'x', 'b', 'c', 'y' }, { { 3, 0, 3, 1, 'y' }, { 0, 0, 0, 1, 'x' } } },
  }
  for _, row in ipairs(rows) do
    it.same(edits(row[2], row[3]), row[4], row[1])
  end
  it.same(edits({ 'abcdef' }, { 'axcdyf' }, nil, true), { { 0, 1, 0, 5, 'xcdy' } }, 'coarse')
  it.same(edits({ 'aaa' }, { 'aa' }, { row = 0, column = 1 }), { { 0, 1, 0, 2, '' } }, 'the second of equal letters')
  it.same(edits({ 'a', 'a', 'a' }, { 'a', 'a' }, { row = 1, column = 0 }), { { 1, 0, 2, 0, '' } }, 'of equal lines')
end)

-- Any two lists of lines: the edits, made in their order, lead from one to the other.
it.test('edits of random lines', false, function()
  math.randomseed(3)
  local pool = { '', 'a', 'b', 'ab', 'é', 'aé', '≒', 'abab', 'ba' }
  for _ = 1, 2000 do
    local function list()
      local lines = {}
      for i = 1, math.random(6) do
        lines[i] = pool[math.random(#pool)]
      end
      return lines
    end
    local old, new = list(), list()
    for _, coarse in ipairs({ false, true }) do
      local mirror = mirrors.new(table.concat(old, '\n'))
      for _, edit in ipairs(diff.edits(old, new, nil, coarse)) do
        mirror:replace(mirror:rows(edit))
      end
      it.same(mirror.lines, new, vim.inspect(old))
    end
  end
end)

it.test('line ends of a text', false, function()
  it.same(mirrors.new('a\r\nb\r\n').line_end, '\r\n')
  it.same(mirrors.new('a\r\nb\n').line_end, '\n')
  it.same(mirrors.new('a\r\nb\r').line_end, '\n')
  it.same(mirrors.new('').lines, { '' })
  it.same({ mirrors.new('a\n'):display() }, { { 'a' }, true })
  it.same({ mirrors.new('\n'):display() }, { { '' }, true })
  it.same({ mirrors.new(''):display() }, { { '' }, false })
end)

-- Many splices in one pass are what they are one by one, and those of the other direction lead back.
it.test('splices made together', false, function()
  math.randomseed(5)
  for round = 1, 2000 do
    local old = ('abcdefghij'):rep(math.random(3))
    local bytes, splices, back = old, {}, {}
    local at = round % 3 == 0 and #old or 0
    for i = 1, math.random(6) do
      -- Downwards, upwards or anywhere.
      local low, high = round % 3 == 1 and at or 0, round % 3 == 0 and at or #bytes
      local from = math.random(math.min(low, #bytes), high)
      local gone = bytes:sub(from + 1, math.min(from + math.random(0, 2), round % 3 == 0 and at or #bytes))
      local put = ('xyz'):sub(1, math.random(0, 3))
      splices[i] = { at = from, gone = gone, put = put }
      table.insert(back, 1, { at = from, gone = put, put = gone })
      bytes = bytes:sub(1, from) .. put .. bytes:sub(from + #gone + 1)
      at = round % 3 == 0 and from or from + #put
    end
    it.same(splicing.apply_splices(old, splices), bytes)
    it.same(splicing.apply_splices(bytes, back), old)
  end
end)

it.test('the splice between two lists of bytes, and its parts', false, function()
  math.randomseed(9)
  local pool = { 'a\n', 'b\n', '\n', 'c', '\0', ('x'):rep(5000) }
  local function bytes()
    local list = {}
    for i = 1, math.random(0, 8) do
      list[i] = pool[math.random(#pool)]
    end
    return table.concat(list)
  end
  for _ = 1, 2000 do
    local old, new = bytes(), bytes()
    local splice = splicing.between(old, new)
    it.same(splicing.apply_splices(old, { splice }), new)
    it.same(splicing.apply_splices(old, splicing.parts({ at = 0, gone = old, put = new })), new)
    it.same(splicing.apply_splices(old, splicing.parts(splice)), new)
  end
  local function parts(gone, put)
    return vim.tbl_map(function(part)
      return { part.at, part.gone, part.put }
    end, splicing.parts({ at = 10, gone = gone, put = put }))
  end
  it.same(parts('a\nb\nc\nd', 'x\nb\nc\nyz'), { { 10, 'a', 'x' }, { 16, 'd', 'yz' } })
  it.same(parts('b\n', 'a\nb\nc\n'), { { 10, '', 'a\n' }, { 14, '', 'c\n' } })
end)

---Random edits of a text by letters of one sort, that of the last place first.
local function random_edits(text, lines, letters)
  local edits, last = {}, #text
  while last >= 0 and math.random(4) > 1 do
    local to = math.random(0, last)
    local from = math.max(to - math.random(0, 3), 0)
    local put = {}
    for i = 1, math.random(from < to and 0 or 1, 2) do
      put[i] = table.remove(letters)
    end
    local row, column = diff.locate(lines, 0, from)
    local end_row, end_column = diff.locate(lines, 0, to)
    edits[#edits + 1] = { row = row, column = column, end_row = end_row, end_column = end_column, text = table.concat(put) }
    last = from - 1
  end
  return edits
end

local function letters_of(first)
  local list = {}
  for i = 1, 20 do
    list[i] = string.char(first + i)
  end
  return list
end

-- Whatever two editors do to a text: what one put in is all there, and beside it the text is that of the other one alone,
-- but for what was taken out.
it.test('edits of two editors together', false, function()
  math.randomseed(13)
  for _ = 1, 5000 do
    local text = ('abc\ndef\n\nghij'):sub(1, math.random(0, 14))
    local old = vim.split(text, '\n', { plain = true })
    local theirs, mine = random_edits(text, old, letters_of(64)), random_edits(text, old, letters_of(32))
    local ours, yours = mirrors.apply_edits(old, mine), mirrors.apply_edits(old, theirs)
    local both = table.concat(mirrors.apply_edits(ours, (merge.move_edits(old, theirs, mine, ours))), '\n')
    ours, yours = table.concat(ours, '\n'), table.concat(yours, '\n')
    local function without(what, gone, from)
      local text_left = what:gsub(gone, '')
      return (text_left:gsub('%l', function(letter)
        return from:find(letter, 1, true) and letter or ''
      end):gsub('\n', ''))
    end
    local why = vim.inspect({ text, theirs, mine, both })
    it.same(without(both, '[!-4]', ours), without(yours, '[!-4]', ours), why)
    it.same(without(both, '[A-T]', yours), without(ours, '[A-T]', yours), why)
  end
  local function meets(theirs, mine)
    local function edit(it)
      return { row = 0, column = it[1], end_row = 0, end_column = it[2], text = it[3] }
    end
    local lines = mirrors.apply_edits({ 'abcdef' }, { edit(mine) })
    local edits, met = merge.move_edits({ 'abcdef' }, { edit(theirs) }, { edit(mine) }, lines)
    return { mirrors.apply_edits(lines, edits)[1], met }
  end
  it.same(meets({ 1, 2, 'X' }, { 1, 2, 'Y' }), { 'aXYcdef', true })
  it.same(meets({ 1, 1, 'X' }, { 1, 1, 'Y' }), { 'aYXbcdef', false })
  it.same(meets({ 1, 4, '' }, { 2, 3, 'Y' }), { 'aYef', true })
  it.same(meets({ 2, 2, 'X' }, { 1, 4, '' }), { 'aXef', true })
  it.same(meets({ 1, 3, '' }, { 2, 4, '' }), { 'aef', false })
  it.same(meets({ 0, 1, 'X' }, { 1, 2, 'Y' }), { 'XYcdef', false })
end)

-- One's own edits put in capitals, another's digits: taking back the own ones leaves all digits.
it.test('own edits taken back among those of another', false, function()
  math.randomseed(17)
  local undone, refused = 0, 0
  for _ = 1, 1000 do
    local bytes, own = 'abcdefghijklmnopqrstuvwxyz', past.new()
    local function splice(put)
      local from = math.random(0, #bytes)
      local gone = bytes:sub(from + 1, from + math.random(0, 2))
      bytes = bytes:sub(1, from) .. put .. bytes:sub(from + #gone + 1)
      return { at = from, gone = gone, put = put, grown = { 0, 0 } }
    end
    for step = 1, math.random(8) do
      if math.random(2) == 1 then
        own:add('undo', { splice(string.char(64 + step)), splice(string.char(64 + step)) }, step)
      else
        own:arrive(splice(tostring(step)))
      end
    end
    local group = own:next('undo')
    while group do
      local digits = bytes:gsub('%D', '')
      if group.met then
        refused = refused + 1
        own:drop('undo')
      elseif math.random(5) == 1 then
        own:refuse('undo')
      else
        for i = #group.splices, 1, -1 do
          local each = group.splices[i]
          it.same(bytes:sub(each.at + 1, each.at + #each.gone), each.gone, 'what is taken back is there')
          bytes = splicing.apply_splices(bytes, { each })
        end
        own:drop('undo')
        undone = undone + 1
      end
      for digit in digits:gmatch('.') do
        it.same(bytes:find(digit, 1, true) ~= nil, true, "another's digit stays")
      end
      group = own:next('undo')
    end
  end
  it.same({ undone > 1000, refused > 100 }, { true, true })
end)

it.test("time in which Neovim can take nothing is no one's silence", false, function()
  local path, uv = it.work .. '/waits', vim.uv or vim.loop
  local server, found = uv.new_pipe(false), nil
  server:bind(path)
  server:listen(1, function() end)
  task.start(function()
    found = task.wait(function(resume)
      uv.new_pipe(false):connect(path, function(fault)
        resume(fault or 'connected')
      end)
      uv.sleep(200)
    end, 100)
  end)
  vim.wait(it.LIMIT, function()
    return found ~= nil
  end)
  server:close()
  it.same(found, 'connected')
end)

it.test('a process that has ended does not run, though the system still lists it', false, function()
  local ended
  -- (what replaces the shell never asks about its child)
  local job = vim.fn.jobstart({ 'sh', '-c', 'sleep 0 & echo $!; exec sleep 100' }, {
    on_stdout = function(_, data)
      ended = ended or tonumber(data[1])
    end,
  })
  it.same(vim.wait(it.LIMIT, function()
    return ended ~= nil and it.read(('/proc/%d/stat'):format(ended)):find(') Z', 1, true) ~= nil
  end, 10), true, 'it has ended')
  local processes = require('legacy.processes')
  local own = vim.fn.getpid()
  it.same({ processes.is_running(ended), processes.is_running(own), processes.name(own) }, { false, true, 'nvim' })
  vim.fn.jobstop(job)
end)

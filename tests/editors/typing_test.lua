---Two editors that type into one document at once: both buffers, the document and the file end with the same bytes, and
---no key is lost.
local it = require('harness')
local others = require('others')
local typists = require('typists')

---Keys of both in each encoding, and seeds: more of them by LEGACY_TEST_TYPING, as `20000 5`.
local KEYS, SEEDS = unpack(vim.tbl_map(tonumber, vim.split(os.getenv('LEGACY_TEST_TYPING') or '2000 1', ' ')))

---The longest time that an editor had no turn, in milliseconds, and the most that it worked itself in one.
local longest, own = 0, 0

local function types(file, letters, seed, settings, keys, disturb)
  math.randomseed(seed)
  it.settings(settings)
  local path = it.open(file.label, file.before)
  local one, other = others.editor(settings), others.editor(settings)
  local done, why = xpcall(function()
    one.edit(file.label, path)
    other.edit(file.label, path)
    vim.cmd('bwipeout!')
    local first, second = typists.new(one, 'q', letters, {}), typists.new(other, 'w', letters, {})
    local before = { typists.count(one, 'q'), typists.count(one, 'w') }
    typists.measure(one)
    typists.measure(other)
    typists.both(first, second, keys * 0.5, disturb)
    first.acts, second.acts = typists.large(letters), typists.large(letters)
    typists.both(first, second, keys * 0.1, disturb)
    typists.agree(one, other)
    local typed = { typists.count(one, 'q') - before[1], typists.count(other, 'w') - before[2] }
    it.same(typed, { first.typed, second.typed }, 'no letter is lost')
    local acts = typists.ACTS
    typists.both(typists.new(one, 'q', letters, acts), typists.new(other, 'w', letters, acts), keys * 0.4, disturb)
    typists.agree(one, other)
    it.same(one.call('written', path) == one.lua('return require("harness").buffer().document.bytes'), true, 'the file')
    typists.agree(one, other)
    for _, of in ipairs({ one, other }) do
      local pauses = typists.pauses(of)
      longest, own = math.max(longest, pauses.longest), math.max(own, pauses.own)
    end
  end, debug.traceback)
  one.quit()
  other.quit()
  others.kill(settings)
  assert(done, why)
end

---How often this editor's text has a letter.
local function count_here(letter)
  return select(2, table.concat(it.lines(), '\n'):gsub(letter, ''))
end

typists.each_file(function(name, _, file)
  it.test(name .. ': a letter is kept at the beginning and the end of each line', file.needs_indexes, function()
    it.open(file.label, file.before)
    local before, rows = count_here('q'), #it.lines()
    for row = 1, rows do
      it.keys(row .. 'G$iq<Esc>Aq<Esc>Iq<Esc>0aq<Esc>')
    end
    it.same(count_here('q') - before, 4 * rows, 'no letter is refused')
    it.agree('this one')
  end)
end)

typists.each_file(function(name, letters, file)
  for seed = 1, SEEDS do
    it.test(('%s: two editors type at once (%d)'):format(name, seed), file.needs_indexes, function()
      types(file, letters, seed, others.settings(), KEYS, function() end)
    end)
    if others.has_records then
      it.test(('%s: the same, and their server is killed (%d)'):format(name, seed), file.needs_indexes, function()
        local settings = others.settings_with_record()
        types(file, letters, seed, settings, KEYS / 4, typists.disturbing(settings, 60))
      end)
    end
  end
end)

io.stdout:write(('the longest time without a turn: %.0f ms; the most that an editor worked in one: %.0f ms\n'):format(longest, own))

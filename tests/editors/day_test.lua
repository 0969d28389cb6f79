---A day's work: two editors and a script edit one document, in five encodings, by keys, pastes and substitutions, while their
---server is stopped and killed. All end with the same bytes, nothing that was put in is lost or doubled, and no editor
---works for long at once.
local it = require('harness')
local others = require('others')
local typists = require('typists')

---Keys of both editors in all encodings together.
local KEYS = tonumber(os.getenv('LEGACY_TEST_DAY') or os.getenv('GATE_LONG') == '1' and '20000' or '500')

---The longest pause, in milliseconds, without the time for which the system let others run.
local LONGEST = 100

local SCRIPT = debug.getinfo(1, 'S').source:match('^@(.*/)') .. 'script.py'

---Starts the script, once the document is open.
---@param settings table
---@param path string
local function script(settings, path)
  local said, partial, complaint = {}, '', ''
  local job = vim.fn.jobstart({ 'python3', SCRIPT, settings.socket, vim.fn.sha256(vim.loop.fs_realpath(path)) }, {
    on_stdout = function(_, data)
      partial = partial .. data[1]
      for i = 2, #data do
        said[#said + 1], partial = partial, data[i]
      end
    end,
    on_stderr = function(_, data)
      complaint = complaint .. table.concat(data, '\n')
    end,
  })
  local self = {}
  ---Waits for the next line that it prints.
  function self.line()
    it.same(vim.wait(it.LIMIT, function()
      return #said > 0 or vim.fn.jobwait({ job }, 0)[1] ~= -1
    end, 20), true, 'the script says something')
    return table.remove(said, 1) or error('the script failed: ' .. complaint)
  end
  ---Ends it, and returns how many marks it put in, and the revision that it has seen last.
  function self.finish()
    vim.fn.chanclose(job, 'stdin')
    return unpack(vim.tbl_map(tonumber, vim.split(self.line(), ' ')))
  end
  function self.stop()
    pcall(vim.fn.jobstop, job)
  end
  it.same(self.line(), 'joined')
  return self
end

---@type Pauses[]
local pauses = {}

local function check_pauses(editors)
  for _, editor in ipairs(editors) do
    local of = typists.pauses(editor)
    pauses[#pauses + 1] = of
    it.same(of.rest <= LONGEST, true, ('a pause of %.0f ms, in which the editor worked for at most %.0f'):format(of.rest, of.own))
    it.same(of.own <= LONGEST, true, ('%.0f ms of its processor in one pause'):format(of.own))
  end
end

---@param file table
---@param letters string[]
---@param keys integer
local function work(file, letters, keys)
  math.randomseed(keys)
  local settings = others.settings_with_record()
  local path = settings.socket .. '.txt'
  it.write(path, file.before)
  local one, other = others.editor(settings), others.editor(settings)
  local third
  local done, why = xpcall(function()
    one.edit(file.label, path)
    other.edit(file.label, path)
    local first, second = typists.new(one, 'q', letters, {}), typists.new(other, 'w', letters, {})
    local function counts()
      return { typists.count(one, 'q'), typists.count(other, 'w'), typists.count(one, 'm') }
    end
    local before = counts()
    third = script(settings, path)
    typists.measure(one)
    typists.measure(other)
    local disturb = typists.disturbing(settings, 40)
    typists.both(first, second, keys * 0.6, disturb)
    first.acts, second.acts = typists.large(letters), typists.large(letters)
    typists.both(first, second, keys * 0.1, disturb)
    local count, rev = third.finish()
    typists.agree(one, other, rev)
    local after = counts()
    for i, typed in ipairs({ first.typed, second.typed, count }) do
      it.same(after[i] - before[i], typed, ('the letters of editor %d, or the marks of the script'):format(i))
    end
    local acts = typists.ACTS
    typists.both(typists.new(one, 'q', letters, acts), typists.new(other, 'w', letters, acts), keys * 0.3, disturb)
    typists.agree(one, other)
    check_pauses({ one, other })
    -- (who writes a file waits for that)
    it.same(one.call('written', path) == one.lua('return require("harness").buffer().document.bytes'), true, 'the file')
    typists.agree(one, other)
  end, debug.traceback)
  if third then
    third.stop()
  end
  one.quit()
  other.quit()
  others.kill(settings)
  assert(done, why)
end

if others.has_records then
  typists.each_file(function(name, letters, file)
    it.test(name .. ': two editors and a script, and a server that is stopped and killed', file.needs_indexes, function()
      work(file, letters, KEYS / #typists.FILES)
    end)
  end)
  local longest, own, waited, long, rest = 0, 0, 0, 0, 0
  for _, of in ipairs(pauses) do
    longest, own, long = math.max(longest, of.longest), math.max(own, of.own), long + of.long
    waited, rest = math.max(waited, of.waited), math.max(rest, of.rest)
  end
  local text = '%d keys: the longest pause is %.0f ms, %.0f without the time of others, and %d are longer than %d; in none an editor'
  text = text .. ' worked for more than %.0f ms or waited for more than %.0f\n'
  io.stdout:write(text:format(KEYS, longest, rest, long, LONGEST, own, waited))
else
  io.stdout:write('5 skipped, for which the program would have to keep a record\n')
end

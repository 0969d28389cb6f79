---What undo and redo lead back to, as bytes. Text is not enough: U+FFFD, or a character that has several sequences of
---bytes, doesn't tell which were there. Each state of Neovim's undo tree has the steps that made it from its parent.
local lists = require('legacy.lists')
local splicing = require('legacy.splices')

---One accepted change or splice, which can be made in both directions.
---@class legacy.Step
---@field taken legacy.OwnSplice
---@field rows legacy.Rows

---@class legacy.State
---@field key integer its number in Neovim's undo tree
---@field before integer|nil the number of the state that it was made from
---@field parent legacy.State|nil the one that its steps begin with
---@field steps legacy.Step[]
---@field has_children boolean|nil whether the steps of others begin with it, so that its own stay as they are

---@class legacy.History
---@field current integer
---@field private root integer
---@field private states table<integer, legacy.State>
local History = {}
History.__index = History

---@param root integer the undo tree's state of the text as it was read
---@return legacy.History
function History.new(root)
  return setmetatable({ root = root, current = root, states = { [root] = { key = root, steps = {} } } }, History)
end

---The state before all changes that an undo tree knows: older ones may have been forgotten.
---@private
---@param tree table what `undotree()` returns
---@return integer
function History:first(tree)
  local entry, oldest = tree.entries[1], math.huge
  if not entry then
    return self.current
  end
  while entry do
    local state = self.states[entry.seq]
    if state and state.before then
      return state.before
    end
    oldest = math.min(oldest, entry.seq)
    entry = entry.alt and entry.alt[1]
  end
  local first = self.root
  for key in pairs(self.states) do
    first = key < oldest and math.max(first, key) or first
  end
  return first
end

---The state that an undo tree is in. Where all changes that it knows are undone it says 0.
---@param tree table what `undotree()` returns
---@return integer
function History:key(tree)
  return tree.seq_cur > self.root and tree.seq_cur or self:first(tree)
end

---@param key integer
---@return boolean
function History:knows(key)
  return self.states[key] ~= nil
end

---The states that lead to one, that one the last.
---@param entries table[] of an undo tree
---@param key integer
---@return integer[]|nil
local function path_to(entries, key)
  local path = {}
  for _, entry in ipairs(entries) do
    local beside = entry.alt and path_to(entry.alt, key)
    if beside then
      return vim.list_extend(path, beside)
    end
    path[#path + 1] = entry.seq
    if entry.seq == key then
      return path
    end
  end
end

---The known state from which one that isn't known is made: several may have passed since the last look.
---@param tree table what `undotree()` returns
---@param key integer
---@return integer
function History:base(tree, key)
  local path = path_to(tree.entries, key) or {}
  for i = #path, 1, -1 do
    if self:knows(path[i]) then
      return path[i]
    end
  end
  return self:first(tree)
end

---Begins a state that is made from the current one, or the current one again if others are made from it already.
---@param key integer
function History:begin(key)
  local parent = self.states[self.current]
  local before = key == self.current and parent.before or self.current
  parent.has_children = true
  self.states[key] = { key = key, before = before, parent = parent, steps = {} }
  self.current = key
end

---Whether a step lies in what the one before it put in, within a line: as each letter of a word that is typed.
---@param last legacy.Step
---@param step legacy.Step
local function goes_on(last, step)
  local from = step.taken.at - last.taken.at
  return from >= 0
    and from + #step.taken.gone <= #last.taken.put
    and last.rows.row == step.rows.row
    and #last.rows.lines_put == 1
    and #step.rows.lines_gone == 1
    and #step.rows.lines_put == 1
end

---Records a step that was made in the current state.
---@param step legacy.Step
function History:record(step)
  if self.states[self.current].has_children then
    self:begin(self.current)
  end
  local steps = self.states[self.current].steps
  local last = steps[#steps]
  if last and goes_on(last, step) then
    local put, from = last.taken.put, step.taken.at - last.taken.at
    last.taken.put = put:sub(1, from) .. step.taken.put .. put:sub(from + #step.taken.gone + 1)
    for i, by in ipairs(step.taken.grown) do
      last.taken.grown[i] = last.taken.grown[i] + by
    end
    last.rows.lines_put = step.rows.lines_put
    return
  end
  steps[#steps + 1] = { taken = vim.deepcopy(step.taken), rows = step.rows }
end

---Whether all that was edited since the root is taken back.
---@return boolean
function History:at_root()
  return self.current == self.root
end

---@param step legacy.Step
---@return legacy.Step
local function reverse_step(step)
  local taken, rows = step.taken, step.rows
  return {
    taken = splicing.inverse(taken),
    rows = { row = rows.row, lines_gone = rows.lines_put, lines_put = rows.lines_gone },
  }
end

---The steps from one state to another.
---@param from legacy.State
---@param to legacy.State
---@return legacy.Step[]
local function between(from, to)
  local above, at = {}, to
  while at do
    above[at] = true
    at = at.parent
  end
  local steps = {}
  at = from
  while not above[at] do
    for i = #at.steps, 1, -1 do
      steps[#steps + 1] = reverse_step(at.steps[i])
    end
    at = at.parent
  end
  local shared, below = at, {}
  at = to
  while at ~= shared do
    table.insert(below, 1, at)
    at = at.parent
  end
  for _, it in ipairs(below) do
    lists.append(steps, it.steps)
  end
  return steps
end

---The steps from the current state to a known one.
---@param key integer
---@return legacy.Step[]
function History:way(key)
  return between(self.states[self.current], self.states[key])
end

---@param key integer
---@param steps legacy.Step[]
---@return { key: integer, splices: legacy.OwnSplice[] }
local function group(key, steps)
  local splices = vim.tbl_map(function(step)
    return step.taken
  end, steps)
  return { key = key, splices = splices }
end

---What was edited from the root to the current state, and then what undo took back and redo makes again: of each state
---its splices.
---@param tree table what `undotree()` returns
---@return { key: integer, splices: legacy.OwnSplice[] }[]
---@return { key: integer, splices: legacy.OwnSplice[] }[]
function History:splices(tree)
  local made, undone, state = {}, {}, self.states[self.current]
  while state do
    table.insert(made, 1, group(state.key, state.steps))
    state = state.parent
  end
  local ahead, from = false, self.states[self.current]
  for _, entry in ipairs(tree.entries) do
    ahead = ahead or entry.curhead ~= nil
    local to = self.states[entry.seq]
    if ahead and to then
      undone[#undone + 1] = group(entry.seq, between(from, to))
      from = to
    end
  end
  return made, undone
end

return History

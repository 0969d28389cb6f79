---Work that waits for replies while Neovim doesn't: a task is a coroutine, resumed once what it waits for has come. Outside
---of a task the same calls wait in place, for example for a command whose user waits. CTRL-C ends that.
local uv = vim.uv or vim.loop

local M = {}

---@class legacy.Task
---@field is_over boolean
---@field is_done boolean whether it ended without an error
---@field result any what it returned, or its error
---@field is_cancelled boolean whether nobody waits for it any more

---Milliseconds of one look for CTRL-C, and nanoseconds of work after which Neovim has a turn.
local LOOK, SLICE = 50, 15000000

---(PUC Lua can't suspend a coroutine within `pcall`; there all waits are in place.)
local CAN_SUSPEND = rawget(_G, 'jit') ~= nil

---@type table<thread, legacy.Task>
local tasks = setmetatable({}, { __mode = 'k' })

---What is to be called where all of Neovim can be used.
---@type (fun())[]
local ready = {}
local is_planned, began = false, 0

---Calls what is ready. What becomes ready meanwhile is called too.
local function pump()
  is_planned = false
  while #ready > 0 do
    table.remove(ready, 1)()
  end
end

---Calls soon, where all of Neovim can be used. It may itself be called where little can be (|api-fast|).
---@param call fun()
function M.soon(call)
  ready[#ready + 1] = call
  if not is_planned then
    is_planned = true
    vim.schedule(pump)
  end
end

---The task that is running, nil outside of any.
---@return legacy.Task|nil
function M.current()
  local thread = coroutine.running()
  return thread and tasks[thread]
end

---@param thread thread
local function continue(thread)
  if coroutine.status(thread) == 'suspended' then
    local before = began
    began = uv.hrtime()
    coroutine.resume(thread)
    began = before
  end
end

---Runs a function as a task, up to where it first waits.
---@param call fun(): any
---@param over fun(task: legacy.Task)|nil is called at its end
---@return legacy.Task
function M.start(call, over)
  local task = { is_over = false, is_done = false, is_cancelled = false }
  local function run()
    task.is_done, task.result = pcall(call)
    task.is_over = true
    if over then
      over(task)
    end
  end
  if CAN_SUSPEND then
    local thread = coroutine.create(run)
    tasks[thread] = task
    continue(thread)
  else
    run()
  end
  return task
end

---Waits in place, while tasks continue. CTRL-C is an error.
---@param is_there fun(): boolean
---@param limit integer|nil milliseconds
local function block(is_there, limit)
  local last = limit and uv.hrtime() + limit * 1000000
  pump()
  while not is_there() and not (last and uv.hrtime() >= last) do
    local left = last and math.ceil((last - uv.hrtime()) / 1000000) or LOOK
    local _, why = vim.wait(math.max(math.min(left, LOOK), 1), function()
      return #ready > 0 or is_there()
    end, 10, true)
    if why == -2 then
      error('legacy: interrupted', 0)
    end
    pump()
  end
end

---Waits until what is armed calls back, and returns with what; or with nothing once the time is over.
---@param arm fun(resume: fun(...))
---@param limit integer|nil milliseconds
function M.wait(arm, limit)
  local thread, is_over, values, timer = M.current() and coroutine.running(), false, {}, nil
  local function resume(...)
    if not is_over then
      is_over, values = true, { ... }
      if thread then
        M.soon(function()
          continue(thread)
        end)
      end
    end
  end
  if thread and limit then
    timer = uv.new_timer()
    -- (by ticks, between which Neovim takes what came: time in which it couldn't doesn't count)
    local left = limit
    timer:start(math.min(LOOK, limit), LOOK, function()
      left = left - LOOK
      if left <= 0 then
        resume()
      end
    end)
  end
  arm(resume)
  while thread and not is_over do
    coroutine.yield()
  end
  if timer then
    timer:close()
  end
  if not thread then
    block(function()
      return is_over
    end, limit)
  end
  return unpack(values)
end

---Waits for some milliseconds.
---@param milliseconds integer
function M.sleep(milliseconds)
  M.wait(function() end, milliseconds)
end

---Gives Neovim a turn, where a task has worked for long.
function M.breathe()
  if M.current() and uv.hrtime() - began > SLICE then
    M.sleep(1)
  end
end

---Runs a function as a task that a user waits for, and returns its result or raises its error. The wait also ends if the
---time is over, or by an error for which it is enough. Then the task continues by itself.
---@param call fun(): any
---@param limit integer|nil milliseconds
---@param is_enough (fun(): string|nil)|nil returns an error for which it is waited no longer
---@return any result
---@return boolean whether it is over
function M.await(call, limit, is_enough)
  if M.current() then
    return call(), true
  end
  local task, why = M.start(call), nil
  local done, interrupted = pcall(block, function()
    why = not task.is_over and is_enough and is_enough() or nil
    return task.is_over or why ~= nil
  end, limit)
  if not task.is_over then
    task.is_cancelled = not done or why ~= nil
    if task.is_cancelled then
      error(why or interrupted, 0)
    end
    return nil, false
  elseif not task.is_done then
    error(task.result, 0)
  end
  return task.result, true
end

---Raises an error if the user who waited for the running task doesn't any more.
function M.check()
  local task = M.current()
  if task and task.is_cancelled then
    error('legacy: interrupted', 0)
  end
end

---What one task at a time does.
---@class legacy.Turns
---@field private owner thread|'main'|nil
---@field private waiting (fun())[]
local Turns = {}
Turns.__index = Turns

---@return legacy.Turns
function M.turns()
  return setmetatable({ waiting = {} }, Turns)
end

---@return boolean whether a task has its turn
function Turns:is_taken()
  return self.owner ~= nil
end

---Whether it is this task's own turn, or that of one that waits for what is running now, so that to wait for it is vain.
---@private
---@param me thread|'main'
---@return boolean
function Turns:is_above(me)
  local owner = self.owner
  return owner == me or owner ~= nil and owner ~= 'main' and coroutine.status(owner) == 'normal'
end

---Calls once no other task has its turn. A call from within is left out.
---@param call fun(): any
---@return any
function Turns:take(call)
  local me = M.current() and coroutine.running() or 'main'
  if self:is_above(me) then
    return nil
  end
  while self.owner do
    M.wait(function(resume)
      self.waiting[#self.waiting + 1] = resume
    end)
  end
  self.owner = me
  local done, result = pcall(call)
  self.owner = nil
  local waiting = self.waiting
  self.waiting = {}
  for _, resume in ipairs(waiting) do
    resume()
  end
  if not done then
    error(result, 0)
  end
  return result
end

return M

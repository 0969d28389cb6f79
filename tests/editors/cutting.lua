---Connections that end at a chosen command, so that nobody is told what became of it.
local Connection = require('legacy.connection')
local it = require('harness')

local M = {}

local EDITS = { change = true, changes = true, splice = true }

---How many of some commands edit a document, at most `most`, and the place of the last of these.
local function edits_in(document, commands, most)
  local count, last = 0, 0
  for i, command in ipairs(commands) do
    if EDITS[command.op] and command.doc == document.name and count < most then
      count, last = count + 1, i
    end
  end
  return count, last
end

---Ends the connection after `most` edits of the next commands were sent. None of them gets a reply. `meanwhile` is called
---before the plugin connects again.
---@param most integer
---@param meanwhile fun()|nil
function M.cut(most, meanwhile)
  local document = it.buffer().document
  local connection, connect = document.connection, document.connect
  connection.send = function(self, commands, call)
    if edits_in(document, commands, math.huge) == 0 then
      return Connection.send(self, commands, call)
    end
    self.send = nil
    local _, last = edits_in(document, commands, most)
    local sent, before = Connection.send(self, vim.list_slice(commands, 1, last), call)
    local awaited = sent[before + last]
    for i = last + 1, #commands do
      -- (this editor doesn't know that they didn't get there, and waits for their replies)
      self.sent = self.sent + 1
      commands[i].id, sent[#sent + 1] = self.sent, { id = self.sent }
      self.waiting[#self.waiting + 1] = sent[#sent]
    end
    if last == 0 then
      self:stop()
    end
    self.hand_reply = function(_, line)
      if self.waiting[1] == awaited then
        self:stop()
      else
        Connection.hand_reply(self, line)
      end
    end
    return sent, before
  end
  document.connect = function(quietly)
    if connection.ended then
      document.connect = connect
      if meanwhile then
        meanwhile()
      end
    end
    return connect(quietly)
  end
end

---Ends the connection before the next change is sent. It comes to the server late, as from one that was stopped: `make` is
---called with it when the plugin has asked what became of it, and sends it again.
---@param make fun(command: table)
function M.delay(make)
  local document = it.buffer().document
  local connection, connect = document.connection, document.connect
  local held
  connection.send = function(self, commands, call)
    if edits_in(document, commands, 1) == 0 then
      return Connection.send(self, commands, call)
    end
    self.sent = self.sent + 1
    commands[#commands].id = self.sent
    self.send, held = nil, vim.deepcopy(commands[#commands])
    self:stop()
    return { { id = 0 } }, 0
  end
  document.connect = function(quietly)
    local now = connect(quietly)
    if now == connection then
      return now
    end
    document.connect = connect
    now.send = function(self, commands, call)
      if edits_in(document, commands, 1) > 0 then
        self.send = nil
        make(held)
      end
      return Connection.send(self, commands, call)
    end
    return now
  end
end

---Sends a command as it is, on a connection of its own, and waits for its reply.
---@param path string the server's
---@param command table
function M.deliver(path, command)
  local pipe, is_there = (vim.uv or vim.loop).new_pipe(false), false
  pipe:connect(path, function(fault)
    assert(not fault, fault)
    pipe:read_start(function()
      is_there = true
    end)
    pipe:write(vim.json.encode(command) .. '\n')
  end)
  it.same(vim.wait(it.LIMIT, function()
    return is_there
  end, 5), true, 'a reply')
  pipe:close()
end

return M

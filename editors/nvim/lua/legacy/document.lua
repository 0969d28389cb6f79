---A document that the program holds, with a copy of its bytes kept here: opens the document again if the program has
---ended, and tells at a write whether an edit went astray.
local base64 = require('legacy.base64')
local messages = require('legacy.messages')
local splicing = require('legacy.splices')

---@class legacy.Document
---@field name string
---@field label string
---@field bytes string as the program has them
---@field encoding string the encoding in force
---@field shared boolean whether other editors may have it too
---@field own boolean whether it was opened here
---@field behind boolean whether another editor has changed it, so that no edit is accepted before that is taken in
---@field apart boolean whether the bytes are not those of the revision, but from before it was joined
---@field unsure boolean|nil whether all is to be read anew
---@field private compared integer up to which byte the document was compared
---@field life integer how often the document was another one than before, opened anew here or by another editor
---@field rev integer
---@field on_joined fun()|nil what is called when it was opened, or joined, on another connection
---@field edit table|nil the edit that was sent last
---@field known integer|nil the number of a command of this document that was accepted
---@field private part integer bytes that one command carries
---@field private connect fun(quietly: boolean|nil): legacy.Connection|nil
---@field private connection legacy.Connection
local Document = {}
Document.__index = Document
for name, method in pairs(require('legacy.changing')) do
  Document[name] = method
end

---Code points of the text, and bytes of the document, that one reply brings, and the fewest that are asked for where the
---program has no memory for more.
local PAGE, FEWEST = 1000000, 256

---Bytes that are compared at once with those that are known here.
local BLOCK = 16384

---How often is asked again what others change meanwhile.
local TRIES = 100

local named = 0

---A name that no other document has.
---@return string
local function new_name()
  named = named + 1
  return ('%d-%d'):format(vim.fn.getpid(), named)
end

---Opens a document of these bytes, or joins the one that is open by the name that is given. Returns nil and the reply
---if it is refused.
---@param connect fun(quietly: boolean|nil): legacy.Connection|nil returns the connection that lives, or quietly one that
---needn't be started
---@param label string
---@param bytes string
---@param part integer
---@param name string|nil what all editors call it that share it; where it is nil, none does
---@return legacy.Document|nil, table|nil
function Document.open(connect, label, bytes, part, name)
  local self = setmetatable({ label = label, bytes = bytes, part = part, connect = connect }, Document)
  self.name, self.shared, self.behind, self.apart, self.life = name or new_name(), name ~= nil, false, false, 0
  self.compared = 0
  local refusal = self:send(connect())
  if refusal then
    return nil, refusal
  elseif self.behind then
    self:refresh()
  end
  return self
end

---Sends the bytes to a connection that has not got the document: an `open`, and `splice`s of what no line has room for.
---@private
---@param connection legacy.Connection
---@return table|nil the first reply that is a refusal
function Document:send(connection)
  local start = base64.encode(self.bytes:sub(1, self.part))
  local commands = { { op = 'open', doc = self.name, label = self.label, bytes = start } }
  for at = self.part, #self.bytes - 1, self.part do
    local bytes = base64.encode(self.bytes:sub(at + 1, at + self.part))
    commands[#commands + 1] = { op = 'splice', doc = self.name, rev = #commands - 1, at = at, del = 0, bytes = bytes }
  end
  local replies
  if self.shared then
    -- The splices would be made on another's document.
    replies = connection:ask({ table.remove(commands, 1) })
    if replies[1].fault == 'NameTaken' then
      return self:join(connection)
    elseif not replies[1].fault then
      vim.list_extend(replies, connection:ask(commands))
    end
  else
    replies = connection:ask(commands)
  end
  for i, reply in ipairs(replies) do
    if reply.fault or reply.encoding == 'replacement' then
      if i > 1 or not reply.fault then
        connection:ask({ { op = 'close', doc = self.name } })
      end
      return reply
    end
  end
  local last = replies[#replies]
  self.connection, self.rev, self.encoding, self.own, self.known = connection, last.rev, last.encoding, true, last.id
  self.behind, self.apart, self.life = self.unsure or false, false, self.life + 1
end

---Joins the document that another editor has opened, if it is in the same encoding: what the label names is seen by an
---empty document.
---@private
---@param connection legacy.Connection
---@return table|nil the reply that is a refusal
function Document:join(connection)
  local empty = new_name()
  local stat, opened = unpack(connection:ask({
    { op = 'stat', doc = self.name },
    { op = 'open', doc = empty, label = self.label, bytes = '' },
    { op = 'close', doc = empty },
  }))
  local is_same = stat.given == opened.encoding
  if opened.fault == 'TooManyDocuments' then
    -- (then only the name itself is known to be right)
    is_same, opened.fault = stat.given and stat.given:lower() == self.label:lower(), nil
  end
  self.known = opened.id
  if stat.fault or opened.fault then
    return stat.fault and stat or opened
  elseif not is_same then
    return { fault = 'OtherEncoding', given = stat.given }
  elseif self.rev and self:resume(connection) then
    return nil
  end
  self.connection, self.rev, self.encoding, self.own = connection, stat.rev, stat.encoding, false
  self.behind, self.apart, self.life = true, true, self.life + 1
end

---Goes on with the document where a server that came again has it as it was at the revision known here, or as edits since
---then have made it. If it has forgotten these, because its record was compacted, all is read again.
---@private
---@param connection legacy.Connection
---@return boolean whether it has
function Document:resume(connection)
  local view = self:view(connection, { self.rev })
  local since = view and view.since[1]
  if since and since.fault == 'Forgotten' then
    self.unsure = true
  elseif not view or since.fault or splicing.patch_bytes(self.bytes, since, view.bytes) ~= view.bytes then
    return false
  end
  self.connection, self.behind, self.apart = connection, self.unsure or view.rev ~= self.rev, false
  return true
end

---The document as one revision has it, and what came since others. All is asked at once, so that others seldom come in
---between. Nil if it is missing, or if the program has no memory for it.
---@private
---@param connection legacy.Connection
---@param revs integer[]
---@return legacy.View|nil
function Document:view(connection, revs)
  local count = #self.bytes
  for _ = 1, TRIES do
    local commands = {}
    for i, rev in ipairs(revs) do
      commands[i] = { op = 'since', doc = self.name, rev = rev }
    end
    commands[#revs + 1] = { op = 'source', doc = self.name, at = 0, len = count }
    commands[#revs + 2] = { op = 'stat', doc = self.name }
    local replies = connection:ask(commands)
    local stat = table.remove(replies)
    local source, same = table.remove(replies), true
    for _, it in ipairs(replies) do
      same = same and (it.fault ~= nil or it.rev == stat.rev)
    end
    if stat.fault or source.fault and stat.bytes == count then
      return nil
    elseif same and stat.bytes == count and source.rev == stat.rev then
      return { rev = stat.rev, bytes = base64.decode(source.bytes), since = replies }
    end
    count = stat.bytes
  end
end

---Opens the document on a connection that hasn't got it.
---@private
---@param connection legacy.Connection
function Document:reopen(connection)
  local refusal = self:send(connection)
  if refusal then
    error("legacy: the document can't be opened again: " .. refusal.fault, 0)
  elseif self.on_joined then
    self.on_joined()
  end
end

---The connection, on which the document is open.
---@private
---@return legacy.Connection
function Document:reach()
  local connection = self.connect()
  if connection ~= self.connection then
    self:reopen(connection)
  end
  return connection
end

local EDITS = { change = true, changes = true, splice = true }

---@param commands table[]
---@return boolean whether none of them changes anything
local function are_questions(commands)
  for _, command in ipairs(commands) do
    if EDITS[command.op] then
      return false
    end
  end
  return true
end

---Sends commands, the edits among them with the revisions that they have if those before them are accepted. If a server that
---editors share ends before it replies to questions, they are asked again if one listens by then. None is started.
---@private
---@param commands table[]
---@return table[]
function Document:ask(commands)
  local done, replies = pcall(self.ask_once, self, commands)
  if done then
    return replies
  end
  local has_ended = self.shared and self.connection and self.connection.ended
  if not has_ended or not are_questions(commands) or not self.connect(true) then
    error(replies, 0)
  end
  return self:ask_once(commands)
end

---@private
---@param commands table[]
---@return table[]
function Document:ask_once(commands)
  local connection = self:reach()
  local replies = self:send_commands(commands)
  if self.shared and replies[1].fault == 'NoDocument' then
    -- Another editor, which had opened it, has closed it.
    self:reopen(connection)
    replies = self:send_commands(commands)
  end
  return replies
end

---@private
---@param commands table[]
---@return table[]
function Document:send_commands(commands)
  local rev = self.rev
  for _, command in ipairs(commands) do
    command.doc = self.name
    if EDITS[command.op] then
      if self.behind then
        return vim.tbl_map(function()
          return { fault = 'Stale' }
        end, commands)
      end
      command.rev, rev, self.edit = rev, rev + 1, command
    elseif command.op == 'since' then
      command.rev = command.rev or self.rev
    end
  end
  local replies = self.connection:ask(commands)
  for i, reply in ipairs(replies) do
    self.known = EDITS[commands[i].op] and not reply.fault and reply.id or self.known
  end
  return replies
end

---@private
---@param command table
---@return table
function Document:must(command)
  local reply = self:ask({ command })[1]
  if reply.fault then
    error(('legacy: %s was refused: %s'):format(command.op, reply.fault), 0)
  end
  return reply
end

---Asks for all of a document by pages, smaller ones where the program has no memory for one.
---@private
---@param length integer
---@param page fun(at: integer, count: integer): table the command that asks for one
---@param content fun(reply: table): string
---@return string
function Document:pages(length, page, content)
  local pages, at, most = {}, 0, PAGE
  while at < length do
    local count = math.min(most, length - at)
    local command = page(at, count)
    local reply = self:ask({ command })[1]
    if not reply.fault then
      pages[#pages + 1], at = content(reply), at + count
    elseif reply.fault == 'OutOfMemory' and count > FEWEST then
      most = math.ceil(count / 2)
    else
      error(('legacy: %s was refused: %s'):format(command.op, reply.fault), 0)
    end
  end
  return table.concat(pages)
end

---@return string the whole text in UTF-8
function Document:text()
  return self:pages(self:must({ op = 'stat' }).utf32, function(at, count)
    return { op = 'text', from = at, to = at + count }
  end, function(reply)
    return reply.text
  end)
end

---@return string the whole document, as the program has it
---@return integer the revision at the beginning
function Document:source()
  local stat = self:must({ op = 'stat' })
  return self:pages(stat.bytes, function(at, count)
    return { op = 'source', at = at, len = count }
  end, function(reply)
    return base64.decode(reply.bytes)
  end),
    stat.rev
end

---What was done to the document since a revision. A program from before there was `since` says only whether something was.
---@param rev integer
---@return table
function Document:since(rev)
  local op = self.connection.is_older and 'stat' or 'since'
  local reply = self:ask({ { op = op, rev = rev, unit = 'utf-8' } })[1]
  if reply.fault == 'UnknownOp' then
    self.connection.is_older = true
    return self:since(rev)
  elseif op == 'stat' and reply.rev ~= rev then
    return { fault = 'Forgotten' }
  end
  return reply
end

---Whether the document was opened with some bytes, and edited since then only as it tells. Then a client that had these bytes
---has lost nothing.
---@param bytes string
---@return boolean
function Document:began_as(bytes)
  local parts = math.max(math.ceil(#bytes / self.part), 1)
  local since = self:since(parts - 1)
  if since.rev ~= self.rev or not since.ins then
    return false
  end
  local at, put = since.at, self.bytes:sub(since.at + 1, since.at + since.ins)
  return self.bytes == bytes:sub(1, at) .. put .. bytes:sub(at + since.del + 1)
end

---Asks whether another editor has changed the document, and calls with the answer, as `tell` of a connection does.
---@param call fun(moved: boolean)
function Document:watch(call)
  local rev = self.rev
  local op = self.connection.is_older and 'stat' or 'since'
  self.connection:tell({ op = op, doc = self.name, rev = rev }, function(reply)
    call(reply.fault ~= nil or reply.rev ~= rev or self.behind)
  end)
end

---Asks for the next bytes, and calls if they aren't those that are known here, though the revision is: then another client has
---opened another document by this name. After some calls all bytes were compared.
---@param call fun()
function Document:compare(call)
  local rev, count, at = self.rev, #self.bytes, self.compared < #self.bytes and self.compared or 0
  local some = self.bytes:sub(at + 1, at + BLOCK)
  self.compared = at + #some
  local function is_now(reply)
    return reply.rev == rev and self.rev == rev
  end
  self.connection:tell({ op = 'source', doc = self.name, at = at, len = #some }, function(reply)
    if is_now(reply) and base64.decode(reply.bytes) ~= some then
      call()
    end
  end)
  self.connection:tell({ op = 'stat', doc = self.name }, function(reply)
    if is_now(reply) and reply.bytes ~= count then
      call()
    end
  end)
end

---Notes that the document of this name is another one than is known here: it is read anew.
function Document:doubt()
  self.behind, self.apart, self.unsure = true, true, true
end

---Opens or joins the document at a server that was started again, if one listens.
---@return boolean whether it did
function Document:revive()
  local connection = self.connect(true)
  if not connection or connection == self.connection then
    return false
  end
  self:reopen(connection)
  return true
end

---Takes the document as another editor has left it, with what it is now.
---@param bytes string
---@param rev integer
---@param encoding string
function Document:is_now(bytes, rev, encoding)
  self.bytes, self.rev, self.encoding = bytes, rev, encoding
  self.behind, self.apart, self.unsure = false, false, false
end

---Reads the whole document again.
---@return string its text in UTF-8
---@return table what `stat` says of it
function Document:refresh()
  local bytes, text, before, now
  repeat
    before = self:must({ op = 'stat' })
    bytes, text = self:source(), self:text()
    now = self:must({ op = 'stat' })
  until now.rev == before.rev and now.bytes == #bytes
  self:is_now(bytes, now.rev, now.encoding)
  return text, now
end

---Replaces bytes by bytes, one splice after another. Returns false if another editor was first; then the document is
---`behind`. Those of a shared one are made as one splice, so that all or none are made if one command has room for it.
---If its server ends before it replies, finds out whether they were made, and otherwise makes them then.
---@param splices legacy.Splice[]
---@return boolean
function Document:splice(splices)
  if not self.shared then
    self:send_splices(self:parts(splices))
    self.bytes = splicing.apply_splices(self.bytes, splices)
    return true
  end
  if #splices > 0 then
    splices = { splicing.between(self.bytes, splicing.apply_splices(self.bytes, splices)) }
  end
  -- One by one: after a part that another editor preceded, the revisions of the next ones could be right again.
  for i, part in ipairs(self:parts(splices)) do
    if not self:splice_shared(part) then
      self.apart = self.apart or i > 1
      return false
    end
  end
  return true
end

---Makes a splice of a shared document for which one command has room.
---@private
---@param splice legacy.Splice
---@return boolean
function Document:splice_shared(splice)
  local sent = {}
  for try = 1, TRIES do
    local life = self.life
    self.edit = nil
    local done, made = pcall(self.send_splices, self, { splice })
    sent[#sent + 1] = self.edit and self.edit.id
    if done and (made or try == 1) then
      self.bytes = made and splicing.apply_splices(self.bytes, { splice }) or self.bytes
      return made
    end
    self:reach()
    if self.behind then
      -- (one that is refused at its second try may be the first one, which a slow server made in between)
      local is_made, is_known = false, true
      if self.life == life then
        is_made, is_known = self:find_splice(splice, sent)
      end
      if not is_known then
        messages.warn('the server ended, and others edited the same text: nobody knows whether your undo was made')
      end
      return is_made
    end
  end
  return false
end

---Splices each of which one command has room for.
---@private
---@param splices legacy.Splice[]
---@return legacy.Splice[]
function Document:parts(splices)
  local parts = {}
  for _, splice in ipairs(splices) do
    local from = 0
    repeat
      local put = splice.put:sub(from + 1, from + self.part)
      parts[#parts + 1] = { at = splice.at + from, gone = from == 0 and splice.gone or '', put = put }
      from = from + #put
    until from >= #splice.put
  end
  return parts
end

---Sends splices, all in flight, and says whether all were made.
---@private
---@param splices legacy.Splice[]
---@return boolean
function Document:send_splices(splices)
  local commands = {}
  for i, it in ipairs(splices) do
    commands[i] = { op = 'splice', at = it.at, del = #it.gone, bytes = base64.encode(it.put) }
  end
  for i, reply in ipairs(#commands > 0 and self:ask(commands) or {}) do
    if reply.fault == 'Stale' and self.shared then
      self.behind, self.apart = true, false
      return false
    elseif reply.fault then
      if i > 1 then
        -- The earlier ones were made all the same. The program starts again, with the bytes from before.
        self.connection:stop()
      end
      error('legacy: bytes were not put back: ' .. reply.fault, 0)
    end
    self.rev, self.encoding = reply.rev, reply.encoding
  end
  return true
end

---@param most integer
---@return integer[][]|nil, integer|nil the first damaged places, and how many there are, or nil if another editor has
---changed the document: of each the first byte and the one after the last, and line and character, in bytes of UTF-8,
---where its U+FFFD begins and where it ends
function Document:damage(most)
  local page = self:must({ op = 'diagnostics', from = 0, max = math.min(most, 10000), unit = 'utf-8' })
  if page.rev == self.rev then
    return page.diagnostics, page.total
  end
end

---Closes the document, at the latest before the next command.
function Document:close()
  if self.connection and not self.connection.ended then
    self.connection:later({ op = 'close', doc = self.name })
  end
end

return Document

---What other editors did to a document: which bytes they replaced, and which lines of its text differ by it.
local base64 = require('legacy.base64')
local splicing = require('legacy.splices')

local M = {}

---@class legacy.Arrival
---@field splice legacy.Splice of the bytes
---@field rows legacy.Rows|nil lines in place of others, where nothing else differs
---@field text string|nil else the whole text
---@field hint { row: integer, column: integer }|nil where the first difference may begin at the latest
---@field last integer|nil the line in which the last of its bytes is
---@field is_other boolean|nil whether it is another document than before, opened from what another editor had
---@field rev integer
---@field sums table what `stat` says of the document now

---How often lines are asked for while others edit, the most code points and bytes of one reply, and a character past the end
---of every line.
local TRIES, MOST, FAR = 5, 1000000, 1000000000

---@param bytes string
---@return string its byte order mark
local function mark(bytes)
  return bytes:match('^\239\187\191') or bytes:match('^\254\255') or bytes:match('^\255\254') or ''
end

---Whether all text is unchanged up to a line end before a splice and from a line end after it. In UTF-16 an odd number of
---bytes changes the text after them, in ISO-2022-JP an escape does. In other encodings a line end is part of nothing longer.
---@param encoding string
---@param splice legacy.Splice
---@param old string
---@param new string
---@return boolean
local function is_local(encoding, splice, old, new)
  if mark(old) ~= mark(new) then
    return false
  elseif encoding:find('^UTF%-16') then
    return (#splice.put - #splice.gone) % 2 == 0
  elseif encoding == 'ISO-2022-JP' then
    -- An escape has three bytes, the first of which is 1B.
    local from = math.max(splice.at - 1, 1)
    local gone, put = old:sub(from, splice.at + #splice.gone), new:sub(from, splice.at + #splice.put)
    return not (gone .. put):find('\27', 1, true)
  end
  return true
end

---The lines of a text, if they end as those of a mirror do.
---@param text string
---@param line_end string
---@return string[]|nil
local function lines_of(text, line_end)
  local lines = vim.split(text, line_end, { plain = true })
  for _, line in ipairs(lines) do
    if line:find('[\r\n]') then
      return nil
    end
  end
  return lines
end

---The lines that replaced others, or nil if the sums say that more differs.
---@param mirror legacy.Mirror
---@param first integer
---@param last integer
---@param sums table
---@param text string of the lines from the first to the last
---@return legacy.Rows|nil
local function rows_of(mirror, first, last, sums, text)
  local put = lines_of(text, mirror.line_end)
  local count = #mirror.lines - (sums.lines - 1 - last) - first
  if not put or #put ~= last - first + 1 or count < 1 then
    return nil
  end
  local gone = vim.list_slice(mirror.lines, first + 1, first + count)
  if mirror:size(mirror.lines) - mirror:size(gone) + mirror:size(put) ~= sums.utf8 then
    return nil
  end
  return { row = first, lines_gone = gone, lines_put = put }
end

---@param document legacy.Document
---@param rev integer
---@param commands table[]
---@return table[]|nil the replies, if all are about this revision
local function ask_at(document, rev, commands)
  local replies = document:ask(commands)
  for _, reply in ipairs(replies) do
    if reply.rev ~= rev or reply.fault then
      return nil
    end
  end
  return replies
end

---What `since` names: its bytes, and the lines or the whole text. Nil if the document has changed again, or if a reply would
---be too long.
---@param document legacy.Document
---@param mirror legacy.Mirror
---@param bytes string those of the revision that was asked about
---@param since table
---@return legacy.Arrival|nil
---@return string|nil bytes those now
local function fetch_arrival(document, mirror, bytes, since)
  local first, last = since.start.line, since['end'].line
  local replies = ask_at(document, since.rev, {
    { op = 'source', at = since.at, len = since.ins },
    { op = 'stat' },
    { op = 'offset', line = first, character = 0, unit = 'utf-8' },
    { op = 'offset', line = last, character = FAR, unit = 'utf-8' },
  })
  if not replies then
    return nil
  end
  local source, sums, from, to = unpack(replies)
  local gone = bytes:sub(since.at + 1, since.at + since.del)
  local splice = { at = since.at, gone = gone, put = base64.decode(source.bytes) }
  local now = splicing.apply_splices(bytes, { splice })
  if #now ~= sums.bytes then
    return nil
  end
  local arrival = { splice = splice, last = last, rev = since.rev, sums = sums }
  if mirror:plain() and is_local(sums.encoding, splice, bytes, now) and to.offset - from.offset <= MOST then
    local text = ask_at(document, since.rev, { { op = 'text', from = from.offset, to = to.offset } })
    arrival.rows = text and rows_of(mirror, first, last, sums, text[1].text)
    arrival.hint = { row = first, column = since.start.character }
  end
  if not arrival.rows and sums.utf32 <= MOST then
    local text = ask_at(document, since.rev, { { op = 'text', from = 0, to = sums.utf32 } })
    arrival.text = text and text[1].text
  end
  return (arrival.rows or arrival.text) and arrival or nil, now
end

---Takes in what was done since a revision; nil if nothing was. If the program can't tell, all is read again.
---@param document legacy.Document
---@param mirror legacy.Mirror the text at that revision
---@param rev integer
---@param bytes string the bytes at that revision
---@return legacy.Arrival|nil
function M.take(document, mirror, rev, bytes)
  local is_other = document.apart
  for _ = 1, TRIES do
    local since = not document.apart and not document.unsure and document:since(rev)
    -- (the document may be another one since it was asked)
    if not since or document.apart or since.fault then
      break
    elseif since.rev == rev and not document.behind then
      return nil
    elseif not since.ins or since.ins > MOST then
      break
    end
    local arrival, now = fetch_arrival(document, mirror, bytes, since)
    if arrival then
      document:is_now(now, arrival.rev, arrival.sums.encoding)
      return arrival
    end
  end
  is_other = is_other or document.apart
  local text, sums = document:refresh()
  is_other = is_other and not document:began_as(bytes)
  local splice = splicing.between(bytes, document.bytes)
  return { splice = splice, text = text, is_other = is_other, rev = sums.rev, sums = sums }
end

return M

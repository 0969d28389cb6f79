---Base64 (RFC 4648, section 4), which Neovim has as `vim.base64` from 0.10 on.
local bit = require('bit')

local M = {}

local DIGITS = 'ABCDEFGHIJKLMNOPQRSTUVWXYZabcdefghijklmnopqrstuvwxyz0123456789+/'

---The two digits of each number of twelve bits, and the number of each digit by its byte.
local pairs_of, value_of = {}, {}
for high = 0, 63 do
  value_of[DIGITS:byte(high + 1)] = high
  for low = 0, 63 do
    pairs_of[high * 64 + low] = DIGITS:sub(high + 1, high + 1) .. DIGITS:sub(low + 1, low + 1)
  end
end

---@param bytes string
---@return string
local function encode(bytes)
  local out, whole = {}, #bytes - #bytes % 3
  for i = 1, whole, 3 do
    local a, b, c = bytes:byte(i, i + 2)
    out[#out + 1] = pairs_of[a * 16 + bit.rshift(b, 4)]
    out[#out + 1] = pairs_of[bit.band(b, 15) * 256 + c]
  end
  local a, b = bytes:byte(whole + 1, #bytes)
  if b then
    out[#out + 1] = pairs_of[a * 16 + bit.rshift(b, 4)] .. pairs_of[bit.band(b, 15) * 256]:sub(1, 1) .. '='
  elseif a then
    out[#out + 1] = pairs_of[a * 16] .. '=='
  end
  return table.concat(out)
end

---@param text string base64 with its padding, and nothing else
---@return string
local function decode(text)
  local out, char = {}, string.char
  for i = 1, #text, 4 do
    local a, b, c, d = text:byte(i, i + 3)
    local bits = value_of[a] * 262144 + value_of[b] * 4096 + (value_of[c] or 0) * 64 + (value_of[d] or 0)
    out[#out + 1] = char(bit.rshift(bits, 16), bit.band(bit.rshift(bits, 8), 255), bit.band(bits, 255))
  end
  local padding = #text - #text:gsub('=+$', '')
  if padding > 0 then
    out[#out] = out[#out]:sub(1, 3 - padding)
  end
  return table.concat(out)
end

---The same two by memory of LuaJIT's, in a hundredth of the time: 16 MiB would stop Neovim for seconds.
---@param ffi table
---@return fun(bytes: string): string
---@return fun(text: string): string
local function by_memory(ffi)
  local digits, values = ffi.new('uint8_t[64]', { DIGITS:byte(1, 64) }), ffi.new('uint8_t[256]')
  for byte, value in pairs(value_of) do
    values[byte] = value
  end
  local function encode_whole(bytes, count)
    local from, out, at = ffi.cast('const uint8_t *', bytes), ffi.new('uint8_t[?]', count / 3 * 4), 0
    for i = 0, count - 1, 3 do
      local bits = from[i] * 65536 + from[i + 1] * 256 + from[i + 2]
      out[at], out[at + 1] = digits[bit.rshift(bits, 18)], digits[bit.band(bit.rshift(bits, 12), 63)]
      out[at + 2], out[at + 3] = digits[bit.band(bit.rshift(bits, 6), 63)], digits[bit.band(bits, 63)]
      at = at + 4
    end
    return ffi.string(out, at)
  end
  local function decode_whole(text, count)
    local from, out, at = ffi.cast('const uint8_t *', text), ffi.new('uint8_t[?]', count / 4 * 3), 0
    for i = 0, count - 1, 4 do
      local bits = values[from[i]] * 262144 + values[from[i + 1]] * 4096 + values[from[i + 2]] * 64 + values[from[i + 3]]
      out[at], out[at + 1], out[at + 2] = bit.rshift(bits, 16), bit.band(bit.rshift(bits, 8), 255), bit.band(bits, 255)
      at = at + 3
    end
    return ffi.string(out, at)
  end
  -- (what may have padding is left to the others)
  return function(bytes)
    local whole = #bytes - #bytes % 3
    return encode_whole(bytes, whole) .. encode(bytes:sub(whole + 1))
  end, function(text)
    local whole = math.max(#text - 4, 0)
    return decode_whole(text, whole) .. decode(text:sub(whole + 1))
  end
end

local has_memory, ffi = pcall(require, 'ffi')
if vim.base64 then
  M.encode, M.decode = vim.base64.encode, vim.base64.decode
elseif has_memory then
  M.encode, M.decode = by_memory(ffi)
else
  M.encode, M.decode = encode, decode
end

return M

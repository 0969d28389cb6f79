---The extended attributes of files, access lists among them. libuv has no calls for these, so they are the C library's, by
---LuaJIT's `ffi`. A Neovim without LuaJIT, or on another system than Linux, can't know them.
local M = {}

-- The most bytes that Linux has for a file's list of names, and for a value; and the error of a file system without any.
local MOST, NOT_SUPPORTED = 65536, 95

---@return table|false|nil ffi with the calls declared, if there are these
local function declare_calls()
  local ffi = require('ffi')
  ffi.cdef([[
    ssize_t flistxattr(int file, char *names, size_t most);
    ssize_t fgetxattr(int file, const char *name, void *value, size_t most);
    int fsetxattr(int file, const char *name, const void *value, size_t length, int flags);
    int fremovexattr(int file, const char *name);
  ]])
  return ffi.os == 'Linux' and ffi.C.flistxattr and ffi
end

local has_ffi, ffi = pcall(declare_calls)
ffi = has_ffi and ffi or nil

---@param descriptor integer
---@return table<string, string>|nil values by their names; nil where they can't be known
function M.of(descriptor)
  if not ffi then
    return nil
  end
  local buffer = ffi.new('char[?]', MOST)
  local length = tonumber(ffi.C.flistxattr(descriptor, buffer, MOST))
  if length < 0 then
    return ffi.errno() == NOT_SUPPORTED and {} or nil
  end
  local values = {}
  for name in ffi.string(buffer, length):gmatch('%Z+') do
    length = tonumber(ffi.C.fgetxattr(descriptor, name, buffer, MOST))
    if length < 0 then
      return nil
    end
    values[name] = ffi.string(buffer, length)
  end
  return values
end

---Gives a file the attributes of another one and takes from it those that the other hasn't, for example the access list
---that its folder gave it, as far as that is allowed.
---@param from integer a descriptor, as the other
---@param to integer
function M.copy(from, to)
  local wanted, had = M.of(from), M.of(to)
  if not ffi or not wanted or not had then
    return
  end
  for name in pairs(had) do
    if not wanted[name] then
      ffi.C.fremovexattr(to, name)
    end
  end
  for name, value in pairs(wanted) do
    if had[name] ~= value then
      ffi.C.fsetxattr(to, name, value, #value, 0)
    end
  end
end

---@param one integer a descriptor, as the other
---@param other integer
---@return boolean whether two files are known to have the same attributes
function M.are_equal(one, other)
  local values = M.of(one)
  return values ~= nil and vim.deep_equal(values, M.of(other))
end

return M

---Files as bytes.
local attributes = require('legacy.attributes')
local uv = vim.uv or vim.loop

local M = {}

-- The mode of a file for its owner alone, that of a new file before the umask, and how many modes there are.
local PRIVATE, COMMON, MODES = tonumber('600', 8), tonumber('666', 8), tonumber('10000', 8)

-- The most bytes of a file's name, and the most links that lead from one to another.
local LONGEST_NAME, MOST_LINKS = 255, 40

-- What the system says if a folder takes no new file, or if a file can't be replaced, for example a mount point.
local NOT_ALLOWED = { EACCES = true, EPERM = true, EROFS = true, EBUSY = true }

---@param path string
---@return string folder
---@return string name
local function split(path)
  return vim.fn.fnamemodify(path, ':h'), vim.fn.fnamemodify(path, ':t')
end

---@param folder string
---@param name string
---@return string
local function join_path(folder, name)
  return (folder == '/' and '' or folder) .. '/' .. name
end

---The path of a file with all links followed, even if a link leads to no file yet.
---@param path string a full one
---@return string
function M.resolve_links(path)
  for _ = 1, MOST_LINKS do
    local real = uv.fs_realpath(path)
    if real then
      return real
    end
    local folder, name = split(path)
    local target = uv.fs_readlink(path)
    if not target then
      return join_path(uv.fs_realpath(folder) or folder, name)
    end
    path = target:sub(1, 1) == '/' and target or join_path(folder, target)
  end
  return path
end

---What a call returned, or an error if it failed: a sentence alone, while LuaJIT's `assert` adds a place before it.
---@generic T
---@param result T|nil
---@param why string|nil
---@return T result
local function must(result, why)
  if not result then
    error(why, 0)
  end
  return result
end

---Calls, closes the file whatever comes, and returns what `pcall` does.
---@param descriptor integer
---@param call fun(descriptor: integer): any
---@return boolean done
---@return any result or why it failed
local function closing(descriptor, call)
  local done, result = pcall(call, descriptor)
  uv.fs_close(descriptor)
  return done, result
end

---@param descriptor integer
---@return string
local function read_all(descriptor)
  local pieces = {}
  repeat
    local bytes = must(uv.fs_read(descriptor, 1048576, -1))
    pieces[#pieces + 1] = bytes
  until bytes == ''
  return table.concat(pieces)
end

---@param path string
---@return string|nil bytes nil where there is no such file
function M.read(path)
  local descriptor, why, code = uv.fs_open(path, 'r', 0)
  if not descriptor then
    if code == 'ENOENT' then
      return nil
    end
    error('legacy: ' .. why, 0)
  end
  local done, bytes = closing(descriptor, read_all)
  if not done then
    error(('legacy: %s: %s'):format(path, bytes), 0)
  end
  return bytes
end

---@param descriptor integer
---@param bytes string
local function write_all(descriptor, bytes)
  local from = 0
  while from < #bytes do
    from = from + must(uv.fs_write(descriptor, bytes:sub(from + 1), from))
  end
end

---Waits until the disk has a folder's names, where the folder can be read.
---@param folder string
local function sync_names(folder)
  local descriptor = uv.fs_open(folder, 'r', 0)
  if descriptor then
    uv.fs_fsync(descriptor)
    uv.fs_close(descriptor)
  end
end

---Makes a file under a hidden name, until it is whole.
---@param folder string
---@param mode integer
---@return integer|nil descriptor
---@return string path or why there is none
---@return string|nil code of the reason
local function create_hidden(folder, mode)
  local number = 0
  while true do
    number = number + 1
    local path = join_path(folder, ('.legacy-%d-%d'):format(vim.fn.getpid(), number))
    local descriptor, why, code = uv.fs_open(path, 'wx', mode)
    if descriptor then
      return descriptor, path
    elseif code ~= 'EEXIST' then
      return nil, why, code
    end
  end
end

---The path of old bytes: the file's name and `.before`, and a number if that is taken.
---@param folder string
---@param name string
---@return string
local function free(folder, name)
  local number, path = 0, nil
  repeat
    number = number + 1
    local ending = number == 1 and '.before' or '.before.' .. number
    path = join_path(folder, name:sub(1, LONGEST_NAME - #ending) .. ending)
  until not uv.fs_lstat(path)
  return path
end

---Opens a file, unless its name leads elsewhere by now. The name is looked at afterwards: in a file system of layers a file
---gets another number when it is opened for writing.
---@param path string
---@param flags string
---@return integer descriptor
local function open_in_place(path, flags)
  local descriptor = must(uv.fs_open(path, flags, 0))
  local found, named = uv.fs_fstat(descriptor), uv.fs_lstat(path)
  if found and named and found.ino == named.ino and found.dev == named.dev then
    return descriptor
  end
  uv.fs_close(descriptor)
  error('the file was replaced meanwhile', 0)
end

---Gives a new file the owner, the attributes, the access list among them, and the mode of an old one.
---@param new integer descriptor
---@param path string
---@param old table what `fs_lstat` returned
---@return boolean whether it is known to have them all
local function liken(new, path, old)
  local from = open_in_place(path, 'r')
  local done, is_alike = closing(from, function()
    uv.fs_fchown(new, old.uid, old.gid)
    attributes.copy(from, new)
    uv.fs_fchmod(new, old.mode % MODES)
    local got = must(uv.fs_fstat(new))
    local has_both = got.uid == old.uid and got.gid == old.gid and got.mode == old.mode
    return has_both and attributes.are_equal(from, new)
  end)
  return done and is_alike
end

---A reason for which a file can be written in place all the same; any other is an error.
---@param why string
---@param code string
---@return string why
local function not_allowed(why, code)
  if not NOT_ALLOWED[code] then
    error(why, 0)
  end
  return why
end

---Writes a new file beside an old one, if there is one, and renames it.
---@param path string
---@param bytes string
---@param old table|nil what `fs_lstat` returned
---@param check fun()
---@return string|nil why that isn't allowed, or the new file can't be like the old one; nil where it is done
local function write_anew(path, bytes, old, check)
  local folder = split(path)
  local descriptor, beside, code = create_hidden(folder, old and PRIVATE or COMMON)
  if not descriptor then
    return not_allowed(beside, code)
  end
  local done, why = closing(descriptor, function()
    write_all(descriptor, bytes)
    if old and not liken(descriptor, path, old) then
      return 'a new file cannot be like it'
    end
    must(uv.fs_fsync(descriptor))
    check()
    local renamed, refused, reason = uv.fs_rename(beside, path)
    return not renamed and not_allowed(refused, reason) or nil
  end)
  if why then
    uv.fs_unlink(beside)
  else
    sync_names(folder)
  end
  if not done then
    error(why, 0)
  end
  return why
end

---Keeps a file's bytes in another one in its folder or, if that isn't allowed, in Neovim's folder for data.
---@param path string
---@param bytes string
---@return string path of the other one
local function keep_bytes(path, bytes)
  local folder, name = split(path)
  local descriptor, hidden, code = create_hidden(folder, PRIVATE)
  if NOT_ALLOWED[code] then
    folder = vim.fn.stdpath('data')
    pcall(vim.fn.mkdir, folder, 'p')
    descriptor, hidden = create_hidden(folder, PRIVATE)
  end
  if not descriptor then
    error(('its old bytes can be kept nowhere meanwhile (%s)'):format(hidden), 0)
  end
  local copy = free(folder, name)
  local done, why = closing(descriptor, function()
    write_all(descriptor, bytes)
    must(uv.fs_fsync(descriptor))
    must(uv.fs_rename(hidden, copy))
  end)
  if not done then
    uv.fs_unlink(hidden)
    error(why, 0)
  end
  sync_names(folder)
  return copy
end

---@param descriptor integer
---@param bytes string
local function overwrite(descriptor, bytes)
  write_all(descriptor, bytes)
  must(uv.fs_ftruncate(descriptor, #bytes))
  must(uv.fs_fsync(descriptor))
end

---Writes a file where it is, while another one keeps its old bytes. That one stays if they can't be put back.
---@param path string
---@param bytes string
---@param check fun()
local function write_in_place(path, bytes, check)
  local descriptor = open_in_place(path, 'r+')
  local done, why = closing(descriptor, function()
    local before = read_all(descriptor)
    local copy = keep_bytes(path, before)
    local written, refused = pcall(check)
    if written then
      written, refused = pcall(overwrite, descriptor, bytes)
      if not written and not pcall(overwrite, descriptor, before) then
        error(('%s; the file is damaged, its old bytes are in %s'):format(refused, copy), 0)
      end
    end
    uv.fs_unlink(copy)
    must(written, refused)
  end)
  if not done then
    error(why, 0)
  end
end

---@param path string
---@param bytes string
---@param check fun()
local function write(path, bytes, check)
  local old, why, code = uv.fs_lstat(path)
  if not old and code ~= 'ENOENT' then
    error(why, 0)
  elseif old and old.type ~= 'file' then
    error(path .. ' is no regular file', 0)
  end
  local refused = old and old.nlink > 1 and 'it has other names' or write_anew(path, bytes, old, check)
  if refused and not old then
    error(refused, 0)
  elseif refused then
    write_in_place(path, bytes, check)
  end
end

---Writes a file: mostly a new one beside it, with its owner, attributes, access list and mode, which is then renamed. So
---the file has its old bytes or the new ones, whatever happens between. One that can't be replaced by its like, or has
---other names, is written in place.
---@param path string not a link
---@param bytes string
---@param check fun() is called right before the file changes; its error leaves all as it is
function M.write(path, bytes, check)
  local done, why = pcall(write, path, bytes, check)
  if not done then
    error('legacy: not written: ' .. tostring(why):gsub('^legacy: ', ''), 0)
  end
end

return M

---How a file gets other bytes, without the program: what stays beside them, and what is left where something fails.
local Buffer = require('legacy.buffer')
local file = require('legacy.file')
local uv = vim.uv or vim.loop
local it = require('harness')

local OLD, NEW = 'the old bytes\255\n', 'new\n'
local PRIVATE = tonumber('600', 8)

local folders = 0

---A file with the old bytes, in a folder of its own.
---@param is_linked boolean|nil whether it has a second name there
---@return string path
---@return string folder
local function made(is_linked)
  folders = folders + 1
  local folder = ('%s/saving%d'):format(it.work, folders)
  vim.fn.mkdir(folder)
  local path = folder .. '/letter.txt'
  it.write(path, OLD)
  assert(uv.fs_chmod(path, tonumber('640', 8)))
  assert(not is_linked or uv.fs_link(path, folder .. '/other.txt'))
  return path, folder
end

local function mode(path)
  return uv.fs_stat(path).mode % 4096
end

local function inode(path)
  return uv.fs_lstat(path).ino
end

local function names(folder)
  local list = vim.fn.readdir(folder)
  table.sort(list)
  return list
end

---Calls while one of libuv's calls is another function, which gets the true one and then what it is called with.
local function with(name, instead, call)
  local own = uv[name]
  uv[name] = function(...)
    return instead(own, ...)
  end
  local done, why = pcall(call)
  uv[name] = own
  if not done then
    error(why, 0)
  end
end

---What libuv returns where a call fails.
local function failed(code)
  return nil, code .. ': refused', code
end

---Calls where no file can be made in some folders.
local function with_closed(closed, call)
  with('fs_open', function(own, path, flags, ...)
    if flags == 'wx' and vim.tbl_contains(closed, vim.fn.fnamemodify(path, ':h')) then
      return failed('EACCES')
    end
    return own(path, flags, ...)
  end, call)
end

---An `fs_write` that stops in the middle when it is called for these times, as on a full disk.
local function full_at(...)
  local times, count = { ... }, 0
  return function(own, descriptor, bytes, at)
    count = count + 1
    if not vim.tbl_contains(times, count) then
      return own(descriptor, bytes, at)
    end
    own(descriptor, bytes:sub(1, 2), at)
    return failed('ENOSPC')
  end
end

local function unchecked() end

---The error of writing the new bytes.
local function refused(path, check)
  local done, why = pcall(file.write, path, NEW, check or unchecked)
  it.same(done, false, 'whether it was written')
  return why
end

---The module as a Neovim without LuaJIT has it.
local function without_ffi()
  local loaded = {}
  for _, name in ipairs({ 'ffi', 'legacy.attributes', 'legacy.file' }) do
    loaded[name], package.loaded[name] = package.loaded[name], nil
  end
  package.preload.ffi = function()
    error('there is no ffi')
  end
  local done, found = pcall(require, 'legacy.file')
  package.preload.ffi = nil
  for name, module in pairs(loaded) do
    package.loaded[name] = module
  end
  return assert(done and found, found)
end

---What a file has beside its bytes, as the system's programs print it.
local function state(path)
  local stat, name = uv.fs_stat(path), vim.fn.shellescape(path)
  return {
    stat.uid, stat.gid, stat.mode,
    vim.fn.system('getfacl --absolute-names --numeric ' .. name),
    vim.fn.system('getfattr --absolute-names -d -m - ' .. name),
  }
end

-- What is done by the shell to a file and its folder before it is written.
local GIVEN = {
  { 'a mode', 'chmod 604 $1' },
  { 'an owner', 'chown 4242:4243 $1' },
  { 'an attribute', 'setfattr -n user.of -v mine $1' },
  { 'an access list', 'setfacl -m u:4242:rw,g::r $1' },
  { 'a folder with a default list', 'setfacl -d -m u:4242:rwx $2' },
  { 'all of it', 'chown 4242 $1 && setfattr -n user.of -v mine $1 && setfacl -m g:4242:r $1 && setfacl -d -m u:1:rw $2' },
}

for _, row in ipairs(GIVEN) do
  it.test('what a file keeps: ' .. row[1], false, function()
    for what, module in pairs({ ['with ffi'] = file, ['without ffi'] = without_ffi() }) do
      local path, folder = made()
      local why = vim.fn.system({ 'sh', '-c', row[2], 'sh', path, folder })
      if vim.v.shell_error ~= 0 then
        why = why:gsub('\n', ' ')
        return io.stdout:write(('tests/editors: skipped, what a file keeps: %s: %s\n'):format(row[1], why))
      end
      local before, number = state(path), inode(path)
      module.write(path, NEW, unchecked)
      it.same({ it.read(path), state(path) }, { NEW, before }, what)
      it.same({ inode(path) == number, names(folder) }, { what == 'without ffi', { 'letter.txt' } }, what)
    end
  end)
end

-- A call of libuv that fails, so that a file is written in place.
local CAUSES = {
  { 'a new one can\'t have its owner', 'fs_lstat', function(own, path)
    local found = own(path)
    -- (which is nobody's number)
    return found and vim.tbl_extend('force', found, { uid = -1 })
  end },
  { 'a new one can\'t have its mode', 'fs_fchmod', function()
    return failed('EPERM')
  end },
  { 'it is a mount point', 'fs_rename', function(own, from, to)
    if to:find('%.before$') then
      return own(from, to)
    end
    return failed('EBUSY')
  end },
}

for _, row in ipairs(CAUSES) do
  it.test('written in place, since ' .. row[1], false, function()
    local path, folder = made()
    local before = inode(path)
    with(row[2], row[3], function()
      file.write(path, NEW, unchecked)
    end)
    it.same({ it.read(path), inode(path), names(folder) }, { NEW, before, { 'letter.txt' } })
  end)
end

it.test('written in place, since its folder takes no new file', false, function()
  local path, folder = made()
  local before = inode(path)
  with_closed({ folder }, function()
    file.write(path, NEW, unchecked)
  end)
  it.same({ it.read(path), inode(path), names(folder) }, { NEW, before, { 'letter.txt' } })
  it.same(vim.fn.glob(vim.fn.stdpath('data') .. '/*.before', true, true), {})
end)

it.test('written in place, since it has other names', false, function()
  local path, folder = made(true)
  file.write(path, NEW, unchecked)
  it.same({ it.read(path), it.read(folder .. '/other.txt') }, { NEW, NEW })
  it.same(names(folder), { 'letter.txt', 'other.txt' })
end)

it.test('a new file is its owner\'s alone until it is like the old one', false, function()
  local path = made()
  local modes = {}
  with('fs_write', function(own, descriptor, ...)
    modes[#modes + 1] = uv.fs_fstat(descriptor).mode % 4096
    return own(descriptor, ...)
  end, function()
    file.write(path, NEW, unchecked)
  end)
  it.same(modes, { PRIVATE })
end)

-- Which writes stop in the middle: the first is the new file's or, where that one has other names, the copy's.
local FULL = { { 'of the new file', false, 1 }, { 'of the copy', true, 1 }, { 'in place', true, 2 } }

for _, row in ipairs(FULL) do
  it.test('a full disk in the middle of writing ' .. row[1], false, function()
    local path, folder = made(row[2])
    local number, left = inode(path), names(folder)
    with('fs_write', full_at(row[3]), function()
      it.same(refused(path), 'legacy: not written: ENOSPC: refused')
    end)
    it.same({ it.read(path), inode(path), names(folder) }, { OLD, number, left })
  end)
end

it.test('old bytes that can\'t be put back are in a file that is named', false, function()
  local path = made(true)
  local copy = path .. '.before'
  it.write(copy, 'of another time')
  with('fs_write', full_at(2, 3), function()
    local why = 'legacy: not written: ENOSPC: refused; the file is damaged, its old bytes are in %s.2'
    it.same(refused(path), why:format(copy))
  end)
  it.same({ it.read(copy), it.read(copy .. '.2'), mode(copy .. '.2') }, { 'of another time', OLD, PRIVATE })
end)

it.test('where its folder takes no copy, Neovim\'s own does', false, function()
  local path, folder = made(true)
  local copy = vim.fn.stdpath('data') .. '/letter.txt.before'
  with_closed({ folder }, function()
    with('fs_write', full_at(2, 3), function()
      it.same(refused(path):match('%S+$'), copy)
    end)
  end)
  it.same(it.read(copy), OLD)
end)

it.test('where no folder takes a copy, nothing is written', false, function()
  local path, folder = made(true)
  with_closed({ folder, vim.fn.stdpath('data') }, function()
    it.same(refused(path), 'legacy: not written: its old bytes can be kept nowhere meanwhile (EACCES: refused)')
  end)
  it.same(it.read(path), OLD)
end)

---Has another Neovim write the new bytes, which is killed in the middle of a write.
---@param path string
---@param write integer which one
local function killed(path, write)
  local code = ([[
    local uv, count = vim.uv or vim.loop, 0
    local own = uv.fs_write
    function uv.fs_write(descriptor, bytes, at)
      count = count + 1
      if count == %d then
        own(descriptor, bytes:sub(1, 2), at)
        uv.kill(vim.fn.getpid(), 'sigkill')
      end
      return own(descriptor, bytes, at)
    end
    require('legacy.file').write(%q, %q, function() end)
  ]]):format(write, path, NEW)
  it.write(it.work .. '/killed.lua', code)
  local words = { vim.v.progpath, '--clean', '-n', '--headless', '--cmd', 'set runtimepath=' .. vim.o.runtimepath }
  vim.fn.system(vim.list_extend(words, { '-c', ('luafile %s/killed.lua'):format(it.work), '-c', 'qall!' }))
end

it.test('killed in the middle of writing in place', false, function()
  local path, folder = made(true)
  killed(path, 2)
  it.same({ it.read(path), it.read(path .. '.before') }, { NEW:sub(1, 2) .. OLD:sub(3), OLD })
  it.same(#vim.fn.readdir(folder), 3)
end)

it.test('killed in the middle of writing the copy', false, function()
  local path = made(true)
  killed(path, 1)
  -- A part of the bytes isn't taken for all of them.
  it.same({ it.read(path), (uv.fs_stat(path .. '.before')) }, { OLD })
end)

it.test('what a Neovim of the same number left when it was killed', false, function()
  local path, folder = made()
  local left = ('%s/.legacy-%d-1'):format(folder, vim.fn.getpid())
  it.write(left, 'left')
  file.write(path, NEW, unchecked)
  it.same({ it.read(path), it.read(left), #vim.fn.readdir(folder) }, { NEW, 'left', 2 })
end)

it.test('what is no regular file is not written', false, function()
  local _, folder = made()
  local pipe, loop = folder .. '/pipe', folder .. '/loop'
  vim.fn.system({ 'mkfifo', pipe })
  assert(uv.fs_symlink(loop, loop))
  for _, path in ipairs({ folder, pipe, loop }) do
    it.same(refused(path), ('legacy: not written: %s is no regular file'):format(path))
  end
  it.same(names(folder), { 'letter.txt', 'loop', 'pipe' })
end)

it.test('a link that takes its place meanwhile is not followed', false, function()
  for _, is_linked in ipairs({ false, true }) do
    local path, folder = made(is_linked)
    local target = made()
    with('fs_lstat', function(own, looked)
      local found = own(looked)
      if found.type == 'file' then
        assert(uv.fs_rename(looked, looked .. '.moved') and uv.fs_symlink(target, looked))
      end
      return found
    end, function()
      it.same(refused(path), 'legacy: not written: the file was replaced meanwhile')
    end)
    it.same({ it.read(target), it.read(path .. '.moved'), uv.fs_readlink(path) }, { OLD, OLD, target })
    it.same(#vim.fn.readdir(folder), is_linked and 3 or 2)
  end
end)

---Writes the new bytes as a buffer of a file does.
---@param own string the buffer's file
---@param path string|nil
---@param forced boolean|nil
---@return string|nil why it is refused
---@return string|nil written the bytes that the buffer's file is then known to have
local function write(own, path, forced)
  local written
  local buffer = setmetatable({ path = file.resolve_links(own), disk = OLD }, { __index = Buffer })
  function buffer.settle()
    return NEW
  end
  function buffer.was_written(_, bytes)
    written = bytes
  end
  local done, why = pcall(buffer.write_alone, buffer, path, forced or false)
  return not done and why or nil, written
end

it.test('a change while a file is being written', false, function()
  for _, is_linked in ipairs({ false, true }) do
    local path, folder = made(is_linked)
    local left = names(folder)
    with('fs_fsync', function(own, ...)
      it.write(path, 'of another program')
      return own(...)
    end, function()
      it.same(write(path), 'legacy: not written: the file has changed since it was read (add ! to overwrite it)')
    end)
    it.same({ it.read(path), names(folder) }, { 'of another program', left })
  end
end)

it.test('a read-only file', false, function()
  local path = made()
  with('fs_access', function()
    return false
  end, function()
    it.same(write(path), 'legacy: not written: the file is read-only (add ! to overwrite it)')
    it.same(it.read(path), OLD)
    it.same({ write(path, nil, true), it.read(path) }, { nil, NEW })
  end)
end)

it.test('another file by links', false, function()
  local own, folder = made()
  local real = made()
  assert(uv.fs_symlink(real, folder .. '/real'))
  assert(uv.fs_symlink('real', folder .. '/link'))
  it.same(write(own, folder .. '/link'), 'legacy: not written: the file exists (add ! to overwrite it)')
  it.same({ write(own, folder .. '/link', true) }, {})
  it.same({ it.read(real), uv.fs_readlink(folder .. '/link'), it.read(own) }, { NEW, 'real', OLD })
end)

it.test('the buffer\'s own file by a link', false, function()
  local own, folder = made()
  assert(uv.fs_symlink(own, folder .. '/link'))
  it.same({ write(own, folder .. '/link') }, { nil, NEW })
  it.same({ it.read(own), uv.fs_lstat(folder .. '/link').type }, { NEW, 'link' })
end)

it.test('a link to no file yet', false, function()
  local own, folder = made()
  assert(uv.fs_symlink('no/../none', folder .. '/link'))
  it.same(write(own, folder .. '/link'):match('ENOENT'), 'ENOENT', 'a folder that is not there')
  vim.fn.mkdir(folder .. '/no')
  it.same(write(own, folder .. '/link'), nil)
  it.same({ it.read(folder .. '/none'), uv.fs_lstat(folder .. '/link').type }, { NEW, 'link' })
end)

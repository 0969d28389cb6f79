"""What `legacy mount` shows, and how programs save in it and are refused."""
import contextlib
import ctypes
import errno
import mmap
import os
import shutil
import struct
import subprocess
import sys
import time
import unittest

from mounts import BYTES, EDITED, TEXT, Ruled, edited, until

CAPABILITY = "security.capability"
# Of inotify(7).
CLOSED_FROM_WRITING = 8
WRITER = """
import os, sys
file = os.open(sys.argv[1], os.O_WRONLY)
try:
    os.write(file, os.fsencode(sys.argv[2]))
except OSError:
    print("refused", flush=True)
input()
"""


def same_times(path, content):
    """Puts a content of the same length into a file, with the times that it had."""
    found = path.stat()
    path.write_bytes(content)
    os.utime(path, ns=(found.st_atime_ns, found.st_mtime_ns))


class Views(Ruled):
    def test_text_size_and_errors(self):
        self.file()
        self.assertEqual((self.shown / "f.sj").stat().st_size, len(TEXT.encode()))
        self.shows(TEXT)

    def test_bytes_without_a_rule(self):
        self.file("f.bin")
        self.assertEqual((self.shown / "f.bin").read_bytes(), BYTES)
        (self.shown / "f.bin").write_bytes(b"\xff")
        self.holds(b"\xff", "f.bin")

    def test_own_attributes_are_answered_and_not_listed(self):
        path = self.file()
        found = {it: os.getxattr(path, f"user.gate.{it}") for it in ("label", "encoding", "errors", "bom")}
        self.assertEqual(found, {"label": b"shift_jis", "encoding": b"Shift_JIS", "errors": b"2", "bom": b"0"})
        self.assertEqual(os.listxattr(path), [])
        self.refuses(errno.ENOTSUP, os.setxattr, path, "user.gate.label", b"x")

    def test_byte_order_mark_is_no_text(self):
        self.file("f.u8", b"\xef\xbb\xbfa\xff")
        self.shows("a\ufffd", "f.u8")
        (self.shown / "f.u8").write_text("b\ufffd")
        self.holds(b"\xef\xbb\xbfb\xff", "f.u8")

    def test_folders_links_and_modes_pass(self):
        path = self.file()
        (self.shown / "d").mkdir()
        (self.shown / "d" / "s.sj").symlink_to("../f.sj")
        self.assertEqual((self.shown / "d" / "s.sj").read_bytes().decode(), TEXT)
        path.chmod(0o640)
        os.utime(path, ns=(1, 2_000_000_003))
        self.assertEqual(((self.below / "f.sj").stat().st_mode & 0o777, path.stat().st_mtime_ns), (0o640, self.kept(2_000_000_003)))
        self.assertEqual(sorted(os.listdir(self.shown)), ["d", "f.sj"])
        shutil.rmtree(self.shown / "d")
        self.assertEqual(os.listdir(self.below), ["f.sj"])

    def test_the_time_of_the_last_reading_stays(self):
        path = self.file()
        for name in "f.sj", "control":
            (self.below / name).write_bytes(BYTES)
            os.utime(self.below / name, ns=(1_000_000_000, 2_000_000_000))
        (self.below / "control").read_bytes()
        if (self.below / "control").stat().st_atime_ns == 1_000_000_000:
            self.skipTest("the file system keeps no such time")
        self.assertEqual((path.stat().st_size, path.read_bytes()), (len(TEXT.encode()), TEXT.encode()))
        self.assertEqual((self.below / "f.sj").stat().st_atime_ns, 1_000_000_000)

    def test_version_control_is_hidden(self):
        for name in ".git", ".svn":
            (self.below / name).mkdir()
        self.assertEqual(os.listdir(self.shown), [])
        self.assertFalse((self.shown / ".git").exists())
        self.refuses(errno.EACCES, (self.shown / ".hg").mkdir)

    def test_a_write_takes_a_program_s_capabilities_away(self):
        path, value = self.file("f.bin"), struct.pack("<5I", 0x0200_0000, 1 << 10, 0, 0, 0)
        try:
            os.setxattr(self.below / "f.bin", CAPABILITY, value)
        except PermissionError:
            self.skipTest("this user may not give any")
        self.assertEqual(os.getxattr(path, CAPABILITY), value)
        with open(path, "r+b") as file:
            self.refuses(errno.ENODATA, os.getxattr, path, CAPABILITY)
            file.write(b"x")
        self.refuses(errno.ENODATA, os.getxattr, path, CAPABILITY)
        self.refuses(errno.ENODATA, os.getxattr, self.below / "f.bin", CAPABILITY)

    def test_what_is_opened_and_not_written_stays_closed_below(self):
        path, system = self.file(), ctypes.CDLL(None)
        heard = system.inotify_init1(os.O_NONBLOCK)
        self.addCleanup(os.close, heard)
        system.inotify_add_watch(heard, os.fsencode(self.below / "f.sj"), CLOSED_FROM_WRITING)
        for flags in os.O_RDWR, os.O_WRONLY | os.O_APPEND:
            os.close(os.open(path, flags))
        self.mount.heard()
        self.refuses(errno.EAGAIN, os.read, heard, 4096)
        os.close(os.open(self.below / "f.sj", os.O_RDWR))
        self.assertTrue(os.read(heard, 4096))

    def test_changes_below_are_seen(self):
        self.file()
        self.shows(TEXT)
        (self.below / "f.sj").write_bytes(b"\x88\x9f")
        self.assertTrue(until(lambda: (self.shown / "f.sj").read_text() == "亜"))

    def test_a_file_that_changes_below_while_it_is_open_is_opened_by_others(self):
        # (by a process, which can be ended where the mount waits for itself)
        for change, text in ((lambda path: path.chmod(0o600)), TEXT), ((lambda path: same_times(path, EDITED)), edited(TEXT)):
            with open(self.file(), "rb") as file:
                file.read()
                change(self.below / "f.sj")
                time.sleep(1.1)  # (behind which the kernel asks for attributes anew)
                ran = subprocess.Popen(["cat", self.shown / "f.sj"], stdout=subprocess.PIPE)
                if not until(lambda: ran.poll() is not None, 20):
                    self.mount.kill()
                self.assertEqual(ran.communicate()[0].decode(), text)

    def test_large_files_are_refused(self):
        path = self.file(content=bytes(16_777_217))
        self.refuses(errno.EFBIG, open, path)
        self.assertEqual(path.stat().st_size, 16_777_217)
        self.assertIn("16777217 bytes", self.mount.log())
        self.file("g.sj", b"")
        with open(self.shown / "g.sj", "wb") as file:
            self.refuses(errno.EFBIG, os.pwrite, file.fileno(), b"a", 60_000_000)


class Saves(Ruled):
    """Each way in which programs save, on a file with damage that the edit doesn't touch."""

    def test_written_in_place(self):
        path = self.file()
        path.write_bytes(edited(TEXT).encode())
        self.holds(EDITED)
        self.shows(edited(TEXT))

    def test_a_few_bytes_in_place(self):
        with open(self.file(), "r+b") as file:
            file.seek(1)
            file.write(b"x")
        self.holds(EDITED)

    def test_cut_and_written_by_parts_that_split_characters(self):
        file = os.open(self.file(), os.O_WRONLY | os.O_TRUNC)
        for byte in edited(TEXT).encode():
            os.write(file, bytes([byte]))
        os.fsync(file)
        self.holds(EDITED)
        os.close(file)

    def test_by_a_shell_that_closes_copies(self):
        path = self.file()
        subprocess.run(f"{{ printf 'AxCD '; printf '%s' 'あ'; tail -c +9 {path}.old; }} > {path}", shell=True, check=True,
                       env={**os.environ, "LC_ALL": "C.UTF-8"}) if path.with_name("f.sj.old").write_bytes(TEXT.encode()) else None
        self.holds(EDITED)

    def test_temporary_file_renamed_over(self):
        path = self.file()
        for temporary in "f.tmp", "tmp.sj":
            (self.shown / temporary).write_bytes(edited(TEXT).encode())
            os.replace(self.shown / temporary, path)
            self.holds(EDITED)
            path.write_bytes(TEXT.encode())
            self.holds(BYTES)
        self.assertEqual(os.listdir(self.below), ["f.sj"])

    def test_a_temporary_file_may_have_a_name_of_another_rule_than_the_file(self):
        escapes = b'\x1b$B$"\x1b$B0!\x1b(B\n'  # (of which no encoder writes the second one)
        for temporary, name, before, behind in (
                ("t.sj", "f.bin", "aあ亜\n".encode(), "bあ亜\n".encode()), ("t.sj", "f.jis", b"a" + escapes, b"b" + escapes)):
            for closed in True, False:
                path, new = self.file(name, before), self.shown / temporary
                with open(new, "wb", buffering=0) as file:
                    file.write("bあ亜\n".encode())
                    if closed:
                        file.close()
                    new.replace(path)
                    self.holds(behind, name)
                    if not closed:
                        file.write(b"c")
                        self.assertEqual(path.read_bytes().decode(), "bあ亜\nc")
                self.holds(behind if closed else behind + b"c", name)
                self.assertEqual(os.listdir(self.below), [name])
            path.unlink()

    def test_a_temporary_file_with_the_rule_of_the_file_in_which_each_line_with_damage_is_another(self):
        # (of more than a MiB, since lines are looked for in what is smaller)
        path = self.file("f.sj", b"".join(b"%06d, a line of text with \xff in it, and more than that\n" % it for it in range(25_000)))
        text = path.read_text().replace(", a line", ": the line")
        (self.shown / "f.XY12.sj").write_text(text)
        os.replace(self.shown / "f.XY12.sj", path)
        self.holds(b"".join(b"%06d: the line of text with \xff in it, and more than that\n" % it for it in range(25_000)))
        self.assertEqual(os.listdir(self.below), ["f.sj"])

    def test_renamed_away_and_made_anew(self):
        path = self.file()
        path.rename(self.shown / "f.sj~")
        path.write_bytes(edited(TEXT).encode())
        self.holds(EDITED)
        self.holds(BYTES, "f.sj~")
        # A file that was renamed keeps its form.
        self.shows(TEXT, "f.sj~")
        (self.shown / "f.sj~").replace(path)
        self.holds(BYTES)
        self.shows(TEXT)

    def test_what_replaces_a_file_that_keeps_its_form_has_that_form(self):
        self.file().rename(self.shown / "f.sj~")
        (self.shown / "f.tmp").write_bytes(edited(TEXT).encode())
        for path in self.shown / "f.tmp", self.file("g.sj", EDITED):
            path.replace(self.shown / "f.sj~")
            time.sleep(1.1)  # (behind which rules are looked up anew)
            self.shows(edited(TEXT), "f.sj~")
            self.holds(EDITED, "f.sj~")

    def test_what_was_made_anew_is_no_temporary_file(self):
        # The backup gets the bytes that the file has then, and not those of the backup before with an equal text.
        path = self.file(content=b"ABCD \xff\n")
        path.rename(self.shown / "f.sj~")
        path.write_bytes(b"ABCD\n")
        (self.below / "f.sj").write_bytes(b"ABCD \xfe\n")
        path.replace(self.shown / "f.sj~")
        self.holds(b"ABCD \xfe\n", "f.sj~")

    def test_deleted_and_made_anew(self):
        path = self.file()
        path.unlink()
        path.write_bytes(edited(TEXT).encode())
        self.holds(EDITED)

    def test_what_is_appended_goes_behind_what_came_below_meanwhile(self):
        more = b"more\n" * 200_000  # (which the kernel hands on in parts)
        for name in "f.sj", "f.bin":
            path = self.file(name)
            path.stat()
            self.append(self.below / name, b"\xff\n")
            self.append(path, more)
            self.holds(BYTES + b"\xff\n" + more, name)
        file = os.open(path, os.O_RDWR | os.O_APPEND)
        self.append(self.below / name, b"\xff\n")
        os.write(file, b"one\n")
        with mmap.mmap(file, 0) as mapped:
            mapped[1:2] = b"x"
        os.close(file)
        self.holds(EDITED + b"\xff\n" + more + b"\xff\none\n", name)

    def append(self, path, content):
        """Appends to a file, and asks for nothing before."""
        file = os.open(path, os.O_WRONLY | os.O_APPEND)
        os.write(file, content)
        os.close(file)

    def test_mapped_and_shared(self):
        with open(self.file(), "r+b") as file, mmap.mmap(file.fileno(), 0) as mapped:
            mapped[1:2] = b"x"
            mapped.flush()
            os.fsync(file.fileno())
            self.holds(EDITED)

    def test_copied_within_the_mount(self):
        shutil.copy(self.file(), self.shown / "g.sj")
        self.holds(BYTES, "g.sj")

    def test_undo_behind_a_save(self):
        path = self.file()
        path.write_text(TEXT[TEXT.index("more"):], newline="")
        self.holds(BYTES[BYTES.index(b"more"):])
        path.write_bytes(TEXT.encode())
        self.holds(BYTES)

    def test_moved_and_copied_lines(self):
        lines, raws = TEXT.splitlines(True), BYTES.splitlines(True)
        path = self.file()
        path.write_bytes("".join([lines[1], lines[0], lines[1]]).encode())
        self.holds(raws[1] + raws[0] + raws[1])

    def test_escapes_that_no_encoder_writes(self):
        content = b"ABCD \x1b$B$\"\x1b$B0!\x1b(B\n"
        path = self.file("f.jis", content)
        path.write_bytes("AxCD あ亜\n".encode())
        self.holds(content.replace(b"B", b"x", 1), "f.jis")

    def test_mode_owner_and_attributes_stay(self):
        path, owner = self.file(), (1234, 5678) if os.geteuid() == 0 else (os.geteuid(), os.getegid())
        os.chown(self.below / "f.sj", *owner)
        os.chmod(self.below / "f.sj", 0o604)
        os.setxattr(self.below / "f.sj", "user.of", b"mine")
        path.write_bytes(edited(TEXT).encode())
        found = (self.below / "f.sj").stat()
        self.assertEqual((found.st_mode & 0o7777, found.st_uid, found.st_gid), (0o604, *owner))
        self.assertEqual(os.getxattr(self.below / "f.sj", "user.of"), b"mine")
        self.holds(EDITED)

    @unittest.skipUnless(shutil.which("setfacl"), "there is no setfacl (Debian's acl)")
    def test_the_access_list_stays(self):
        path = self.file()
        asked = ["getfacl", "--omit-header", "--absolute-names", "--numeric", self.below / "f.sj"]
        if subprocess.run(["setfacl", "-m", "u:1234:rw,g:5678:r", self.below / "f.sj"]).returncode:
            self.skipTest("the file system has no access lists")
        before = subprocess.check_output(asked)
        self.assertIn(b"user:1234:rw-", before)
        path.write_bytes(edited(TEXT).encode())
        self.holds(EDITED)
        self.assertEqual(subprocess.check_output(asked), before)

    def test_other_names_of_a_file_stay_its_names(self):
        path = self.file()
        os.link(path, self.shown / "g.sj")
        path.write_bytes(edited(TEXT).encode())
        self.holds(EDITED, "g.sj")
        self.assertEqual((self.below / "f.sj").stat().st_nlink, 2)
        self.assertTrue(until(lambda: (self.shown / "g.sj").read_bytes() == edited(TEXT).encode()))
        self.assertEqual(sorted(os.listdir(self.below)), ["f.sj", "g.sj"])
        self.refuses(errno.EXDEV, os.link, path, self.shown / "g.w")

    def test_the_time_of_a_save_stays(self):
        path = self.file()
        with open(path, "wb") as file:
            file.write(edited(TEXT).encode())
            file.flush()
            before = os.fstat(file.fileno()).st_mtime_ns
        self.assertEqual((path.stat().st_mtime_ns, (self.below / "f.sj").stat().st_mtime_ns), (before, self.kept(before)))

    def test_a_time_that_is_set_behind_a_save_is_shown(self):
        path = self.file()
        with open(path, "r+b") as file:
            file.write(b"x")
            file.flush()
            os.fsync(file.fileno())
            os.utime(path, ns=(1, 2_000_000_003))
            self.assertEqual(os.fstat(file.fileno()).st_mtime_ns, 2_000_000_003)
        self.assertIn(path.stat().st_mtime_ns, (2_000_000_003, self.kept(2_000_000_003)))
        self.assertEqual((self.below / "f.sj").stat().st_mtime_ns, self.kept(2_000_000_003))


class Refusals(Ruled):
    """Texts that can't be saved: the old file stays, and the text is beside it."""

    def setUp(self):
        super().setUp()
        self.logged = len(self.mount.log())

    def rejected(self, text, name="f.sj", content=BYTES, why=b""):
        """What a refused save of a text leaves."""
        self.holds(content, name)
        # (it is said last that the text is there)
        self.assertTrue(until(lambda: f"{name}: NOT SAVED: " in self.mount.log()[self.logged:]), self.mount.log())
        self.assertEqual((self.below / f"{name}.rejected").read_bytes(), text)
        self.assertIn(why, os.getxattr(self.below / f"{name}.rejected", "user.gate.refused"))
        self.assertTrue(until(lambda: (self.shown / name).read_bytes() != text))

    def writes_what_is_refused(self, path, text):
        """Writes a text in the place of a file's, which its write and its close refuse."""
        file = os.open(path, os.O_WRONLY | os.O_CREAT | os.O_TRUNC)
        self.refuses(errno.EILSEQ, os.write, file, text)
        self.refuses(errno.EILSEQ, os.close, file)

    def test_a_character_that_the_encoding_lacks_at_its_write(self):
        text = edited(TEXT + "é").encode()
        self.writes_what_is_refused(self.file(), text)
        self.rejected(text, why="U+00E9".encode())
        self.shows(TEXT)
        self.assertIn(b"U+00E9", os.getxattr(self.shown / "f.sj", "user.gate.refused"))
        # The program that was refused saves another text.
        (self.shown / "f.sj").write_bytes(edited(TEXT).encode())
        self.holds(EDITED)
        self.assertEqual(os.listdir(self.below), ["f.sj"])

    def test_the_text_of_another_program_stays(self):
        path = self.file()
        text = (TEXT + "é").encode()
        subprocess.run([sys.executable, "-c", f"open({str(path)!r}, 'wb').write({text!r})"], stderr=subprocess.DEVNULL)
        path.write_bytes(edited(TEXT).encode())
        self.holds(EDITED)
        self.assertEqual((self.below / "f.sj.rejected").read_bytes(), text)

    def test_what_is_not_utf_8(self):
        file = os.open(self.file(), os.O_WRONLY | os.O_TRUNC)
        os.write(file, b"A\x82\xa0")
        self.refuses(errno.EILSEQ, os.close, file)
        self.rejected(b"A\x82\xa0", why=b"no UTF-8")

    def test_damage_that_is_typed(self):
        file = os.open(self.file("f.w", b"ABCD\n"), os.O_WRONLY | os.O_APPEND)
        os.write(file, "\ufffd\n".encode())
        self.refuses(errno.EILSEQ, os.close, file)
        self.rejected("ABCD\n\ufffd\n".encode(), "f.w", b"ABCD\n", why=b"U+FFFD stands for bytes")

    def test_renamed_over(self):
        path = self.file()
        (self.shown / "f.tmp").write_bytes("é".encode())
        self.refuses(errno.EILSEQ, os.replace, self.shown / "f.tmp", path)
        self.rejected("é".encode(), why=b"U+00E9")

    def test_renamed_over_what_another_program_writes_and_may_not(self):
        path, text = self.file(), (TEXT + "é").encode()
        words = [sys.executable, "-c", WRITER, path, text]
        with subprocess.Popen(words, stdin=subprocess.PIPE, stdout=subprocess.PIPE) as writer:
            self.assertEqual(writer.stdout.readline(), b"refused\n")
            (self.shown / "f.tmp").write_bytes(edited(TEXT).encode())
            os.replace(self.shown / "f.tmp", path)
            self.rejected(text, content=EDITED)
            writer.communicate(b"\n")
        self.rejected(text, content=EDITED)

    def test_deleted_and_made_anew_is_put_back(self):
        path = self.file()
        path.unlink()
        self.writes_what_is_refused(path, "é".encode())
        self.assertTrue(until(lambda: (self.below / "f.sj").read_bytes() == BYTES))
        self.rejected("é".encode())

    def test_an_empty_file_that_was_made_anew_stays_empty(self):
        path = self.file()
        path.unlink()
        path.touch()
        self.mount.heard()  # (that it was closed is said afterwards)
        self.writes_what_is_refused(path, "é".encode())
        self.rejected("é".encode(), content=b"")
        time.sleep(0.5)  # (in which it would be put back)
        self.holds(b"")

    def test_changed_below_by_someone_else(self):
        file = os.open(self.file(), os.O_WRONLY | os.O_TRUNC)
        os.write(file, edited(TEXT).encode())
        (self.below / "f.sj").write_bytes(b"another")
        self.refuses(errno.EBUSY, os.close, file)
        self.rejected(edited(TEXT).encode(), content=b"another", why=b"changed by someone else")

    def test_what_ends_inside_a_character(self):
        with open(self.file(), "wb", buffering=0) as file:
            file.write(b"A\xe3\x81")
        self.rejected(b"A\xe3\x81")
        self.shows(TEXT)

    def test_what_can_t_be_appended_stays_one_by_one(self):
        # No text that the same program appends later has it.
        path, lines = self.file(), [f"{number} é\n" for number in range(4)]
        for line in lines:
            with open(path, "ab", buffering=0) as file:
                with contextlib.suppress(OSError):
                    file.write(line.encode())
                self.refuses(errno.EILSEQ, os.fsync, file.fileno())
                with contextlib.suppress(OSError):
                    file.close()
            self.mount.heard()
        with open(path, "ab") as file:
            file.write(b"last\n")
        self.holds(BYTES + b"last\n")
        kept = sorted(it for it in os.listdir(self.below) if ".rejected" in it)
        self.assertEqual(sorted((self.below / it).read_text()[-len(lines[0]):] for it in kept), lines)

    def test_what_would_be_too_large_for_the_next_mount(self):
        with open(self.shown / "g.u8", "wb") as file:
            file.write(b"a\n" * 9_000_000)
            file.flush()
            self.refuses(errno.EFBIG, os.fsync, file.fileno())
            with contextlib.suppress(OSError):
                file.close()
        self.holds(b"", "g.u8")

    def test_a_refused_save_is_made_once(self):
        path = self.file()
        text = edited(TEXT).encode()
        with open(path, "wb", buffering=0) as file:
            file.write(text)
            (self.below / "f.sj").write_bytes(b"another")
            for _ in range(2):
                self.refuses(errno.EBUSY, os.fsync, file.fileno())
            with contextlib.suppress(OSError):
                file.close()
        self.rejected(text, content=b"another")
        self.assertEqual(sorted(it for it in os.listdir(self.below) if "rejected" in it), ["f.sj.rejected"])

    def test_names_of_more_than_one_line_are_one_in_the_log(self):
        self.writes_what_is_refused(self.file("a\nb.sj"), "é".encode())
        self.assertTrue(until(lambda: "a\\nb.sj: NOT SAVED: " in self.mount.log()), self.mount.log())

    def test_a_child_that_closes_what_its_program_still_writes(self):
        file = os.open(self.file("f.w", b"ABCD\n"), os.O_RDWR | os.O_TRUNC)
        os.write(file, "typed \ufffd".encode())
        child = os.fork()
        if child == 0:
            with contextlib.suppress(OSError):
                os.close(file)
            os._exit(0)
        os.waitpid(child, 0)
        os.ftruncate(file, 0)
        os.pwrite(file, b"AxCD\n", 0)
        os.close(file)
        self.mount.heard()
        self.holds(b"AxCD\n", "f.w")
        self.assertEqual((os.listdir(self.below), "NOT SAVED" in self.mount.log()[self.logged:]), (["f.w"], False))

    def test_an_earlier_text_stays(self):
        path = self.file()
        (self.below / "f.sj.rejected").write_bytes(b"earlier")
        self.writes_what_is_refused(path, "é".encode())
        self.assertTrue(until(lambda: (self.below / "f.sj.rejected.2").exists()))
        self.assertEqual((self.below / "f.sj.rejected").read_bytes(), b"earlier")

    def test_a_text_that_somebody_edits_stays(self):
        path = self.file()
        self.writes_what_is_refused(path, "é".encode())
        self.rejected("é".encode())
        (self.below / "f.sj.rejected").write_bytes(b"by hand")
        self.writes_what_is_refused(path, "é".encode())
        self.assertTrue(until(lambda: (self.below / "f.sj.rejected.2").exists()))
        (self.below / "f.sj.rejected.2").write_bytes(b"by hand, too")
        path.write_bytes(edited(TEXT).encode())
        self.holds(EDITED)
        self.assertEqual([(self.below / f"f.sj.rejected{it}").read_bytes() for it in ("", ".2")], [b"by hand", b"by hand, too"])


if __name__ == "__main__":
    unittest.main()

"""Programs, and ways of saving, that make the edit of files.py through a mount: each as a line that a reader can type.

In a line `$file` is the file in the mount, `$folder` and `$name` its two parts. `$edited` is a file elsewhere with the
edited text in UTF-8, `$work` an empty folder elsewhere, and `$python` an interpreter."""
from typing import List, NamedTuple, Tuple

# An expression for what the screen shows before keys are typed, and these keys.
Step = Tuple[str, str]


class Way(NamedTuple):
    """A way of saving: the program that it needs, its line, and the keys that are typed if it wants a terminal. `leaves`
    is the end of the name of a file that it leaves next to the saved one."""

    name: str
    program: str
    line: str
    steps: Tuple[Step, ...] = ()
    leaves: str = ""


RIGHT, DELETE, F2, F7, F10 = "\x1bOC", "\x1b[3~", "\x1b[12~", "\x1b[18~", "\x1b[21~"


def one_by_one(*keys: str) -> List[Step]:
    """Steps that wait only until the screen is quiet."""
    return [("", key) for key in keys]


# Where case doesn't count in a search, as here, some files have "abcd" between the two. ^W finds, ^O writes, ^X leaves.
NANO = (
    ("Exit", "\x17"), ("Search", "ABCD\r"), *one_by_one(RIGHT + DELETE + "x\x17"), ("Search", "second ABCD\r"),
    *one_by_one(RIGHT * 9 + DELETE + "y\x0f"), ("Write", "\r"), ("Wrote", "\x18"))
# What is found is selected, and what is typed takes its place. ^F finds, ^S saves, ^Q leaves.
MICRO = (
    ("ABCD", "\x06"), ("Find", "ABCD\r"), *one_by_one("AxCD\x06"), ("Find", "second ABCD\r"), *one_by_one("second AByD\x13"),
    ("Saved", "\x11"))
# ^K F finds, and goes after what it found; ^B goes left, ^D deletes, ^K X saves and leaves.
JOE = (
    ("ABCD", "\x0bf"), ("Find", "ABCD\r"), ("gnore", "\r"), *one_by_one("\x02\x02\x02\x04x\x0bf"), ("Find", "ABCD\r"), ("gnore", "\r"),
    *one_by_one("\x02\x02\x04y\x0bx"))
MCEDIT = (
    ("Quit", F7), ("Search", "ABCD\r"), *one_by_one(RIGHT, DELETE, "x", F7), ("Search", "second ABCD\r"),
    *one_by_one(*[RIGHT] * 9, DELETE, "y", F2), ("Save", "\r"), *one_by_one(F10))

VIM = "vim --not-a-term -T dumb {} " \
      "-c 'call cursor(1, 1) | call search(\"ABCD\", \"c\") | execute \"normal! lrx\"' " \
      "-c 'call search(\"ABCD\", \"c\") | execute \"normal! llry\"' -c wq \"$file\""
NVIM = VIM.replace("vim --not-a-term -T dumb", "nvim --clean --headless")
EMACS = "emacs -Q --batch --eval '(progn {} (find-file (getenv \"file\")) (setq case-fold-search nil)" \
        " (dolist (edit (quote ((3 . \"x\") (2 . \"y\")))) (goto-char 1) (search-forward \"ABCD\")" \
        " (backward-char (car edit)) (delete-char 1) (insert (cdr edit))) (save-buffer))'"
KAK = "kak -n -ui dummy \"$file\" -e 'execute-keys gg/ABCD<ret><a-semicolon><semicolon>lrx" \
      "/ABCD<ret><a-semicolon><semicolon>llry; write; quit'"
SED = "'s/second ABCD/second AByD/; s/ABCD/AxCD/'"
PYTHON = "\"$python\" -c 'import mmap, os, sys\nname = sys.argv[1]\nold = open(name, \"rb\").read()\n" \
         "new = old.replace(b\"ABCD\", b\"AxCD\", 1).replace(b\"ABCD\", b\"AByD\", 1)\n{}' \"$file\""
NODE = "node -e 'const fs = require(\"fs\"), name = process.argv[1]\n" \
       "const text = fs.readFileSync(name, \"utf8\").replace(\"ABCD\", \"AxCD\").replace(\"ABCD\", \"AByD\")\n{}' \"$file\""

EDITORS = [
    Way("nano", "nano", 'nano "$file"', NANO),
    Way("nano -B (backup)", "nano", 'nano -B "$file"', NANO, "~"),
    Way("vim, as it comes", "vim", VIM.format("")),
    Way("vim, swap file, undo file", "vim", VIM.format("--cmd 'set undofile undodir=. directory=. updatecount=1'"), leaves=".un~"),
    Way("vim backupcopy=yes backup", "vim", VIM.format("--clean --cmd 'set backup backupcopy=yes backupskip='"), leaves="~"),
    Way("vim backupcopy=no backup", "vim", VIM.format("--clean --cmd 'set backup backupcopy=no backupskip='"), leaves="~"),
    Way("vim nowritebackup", "vim", VIM.format("--clean --cmd 'set nobackup nowritebackup'")),
    Way("nvim", "nvim", NVIM.format("")),
    Way("nvim backupcopy=no", "nvim", NVIM.format("--cmd 'set backup backupcopy=no backupskip= backupdir=.'"), leaves="~"),
    Way("emacs, backup by rename", "emacs", EMACS.format("(setq backup-enable-predicate (lambda (_) t))"), leaves="~"),
    Way("emacs, backup by copying", "emacs",
        EMACS.format("(setq backup-by-copying t backup-enable-predicate (lambda (_) t))"), leaves="~"),
    Way("emacs, precious", "emacs", EMACS.format("(setq make-backup-files nil file-precious-flag t)")),
    Way("kak", "kak", KAK),
    Way("micro", "micro", 'micro "$file"', MICRO),
    Way("joe", "joe", 'joe "$file"', JOE, "~"),
    Way("mcedit", "mcedit", 'mcedit "$file"', MCEDIT),
    Way("ed", "ed", r"""printf '%s\n' /ABCD/s//AxCD/ /ABCD/s//AByD/ w q | ed -s "$file" """),
    Way("ex (vim)", "ex", r"""printf '%s\n' '%s/second ABCD/second AByD/' %s/ABCD/AxCD/ x | ex -s "$file" """),
]

TOOLS = [
    Way("sed -i", "sed", f'sed -i {SED} "$file"'),
    Way("sed -i.bak", "sed", f'sed -i.bak {SED} "$file"', leaves=".bak"),
    Way("sed -i, by a link", "sed", f'ln -s "$name" "$folder/link" && sed -i --follow-symlinks {SED} "$folder/link"'),
    Way("gawk -i inplace", "gawk", """gawk -i inplace '{ sub(/second ABCD/, "second AByD"); sub(/ABCD/, "AxCD"); print }' "$file" """),
    Way("perl -i", "perl", f'perl -i -pe {SED} "$file"'),
    Way("perl -i.orig", "perl", f'perl -i.orig -pe {SED} "$file"', leaves=".orig"),
    Way("busybox sed -i", "busybox", f'busybox sed -i {SED} "$file"'),
    Way("awk > tmp, mv", "awk",
        """awk '{ sub(/second ABCD/, "second AByD"); sub(/ABCD/, "AxCD"); print }' "$file" > "$file.tmp" && mv "$file.tmp" "$file" """),
    Way("sponge", "sponge", f'sed {SED} "$file" | sponge "$file"'),
    Way("tee", "tee", 'tee "$file" < "$edited" > "$work/out"'),
    Way("sh > file", "sh", 'sh -c \'cat "$edited" > "$file"\''),
    Way("cp over", "cp", 'cp "$edited" "$file"'),
    Way("cp --remove-destination", "cp", 'cp --remove-destination "$edited" "$file"'),
    Way("mv over, from outside", "mv", 'cp "$edited" "$work/it" && mv "$work/it" "$file"'),
    Way("install", "install", 'install -m 644 "$edited" "$file"'),
    Way("rsync -a", "rsync", 'rsync -aI "$edited" "$file"'),
    Way("rsync --inplace", "rsync", 'rsync -aI --inplace "$edited" "$file"'),
    Way("tar, out and in", "tar",
        f'cd "$work" && tar -C "$folder" -cf a.tar "$name" && tar -xf a.tar && sed -i {SED} "$name" && tar -cf b.tar "$name"'
        ' && tar -C "$folder" -xf b.tar'),
    Way("patch", "patch", 'diff -au "$file" "$edited" > "$work/diff"; patch --binary -s "$file" "$work/diff"'),
    Way("git apply", "git",
        'cd "$folder" && diff -au --label "a/$name" --label "b/$name" "$name" "$edited" > "$work/diff"; git apply "$work/diff"'),
    Way("dd, two bytes in place", "dd",
        'for it in 1x 2y; do at=$(grep -abom1 ABCD "$file" | cut -d: -f1)\n'
        'printf %s "${it#?}" | dd of="$file" bs=1 seek=$((at + ${it%?})) conv=notrunc status=none; done'),
]

CALLS = [
    Way("python open 'w'", "python3", PYTHON.format('open(name, "wb").write(new)')),
    Way("python 'r+', truncate", "python3", PYTHON.format('file = open(name, "r+b")\nfile.write(new)\nfile.truncate()')),
    Way("python, small writes, fsync", "python3", PYTHON.format(
        'file = open(name, "wb", buffering=0)\nfor at in range(0, len(new), 7):\n    file.write(new[at : at + 7])\n    os.fsync(file)')),
    Way("python, temp, os.replace", "python3", PYTHON.format('open(name + ".new", "wb").write(new)\nos.replace(name + ".new", name)')),
    Way("python mmap, shared", "python3", PYTHON.format(
        'file = open(name, "r+b")\nmap = mmap.mmap(file.fileno(), 0)\nmap[:] = new\nmap.flush()')),
    Way("node writeFile (VS Code)", "node", NODE.format(
        'const file = fs.openSync(name, "w")\nfs.writeSync(file, text)\nfs.fdatasyncSync(file)\nfs.closeSync(file)')),
    Way("node, temp, rename (atomic)", "node", NODE.format(
        'fs.writeFileSync(name + ".vsctmp", text, { flush: true })\nfs.renameSync(name + ".vsctmp", name)')),
]

WAYS = [*EDITORS, *TOOLS, *CALLS]

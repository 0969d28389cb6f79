#!/usr/bin/env bash
# What a user does with the installed package, in a system of Debian that has nothing else of this repository.
#
# usage: session.sh WORK
#
# The folder WORK has README's session (in.jsonl) and its replies (out.jsonl), and index files in standard/. Each step prints
# its name; the first that fails ends this with status 1. The mount is skipped without /dev/fuse.
set -euo pipefail
work=$1
cd "$work"
export XDG_DATA_HOME=$work/data HOME=$work/home XDG_STATE_HOME=$work/state
mkdir -p "$HOME"
step() { echo "step: $*"; }
skip() { echo "skipped: $*"; }

step program
gate --version
mkdir none
gate stdio --indexes none < in.jsonl | cmp - out.jsonl

step client
python3 -c 'import gate; print(gate.__file__)' | grep -qx /usr/lib/python3/dist-packages/gate.py

step two live clients
gate serve --indexes none --socket "$work/socket" &
server=$!
trap 'kill "$server" 2> /dev/null || true' EXIT
for _ in $(seq 100); do [ ! -S "$work/socket" ] || break; sleep 0.1; done
python3 - "$work/socket" <<'PYTHON'
import sys
from gate import Document, Gate
with Gate.connect(path=sys.argv[1]) as one, Gate.connect(path=sys.argv[1]) as two:
    first = one.open("letter", "utf-8", b"a letter")
    second = Document.join(two, "letter")
    first.change("one", (0, 0), (0, 1))
    second.catch_up()
    assert second.bytes == first.bytes == b"one letter", (first.bytes, second.bytes)
PYTHON
kill "$server"
wait "$server" || true
trap - EXIT

step manual pages
for page in gate.1 legacy.1 gate-standard.1; do [ -s "/usr/share/man/man1/$page.gz" ]; done

step gate-standard
gate-standard --from "file://$work/standard"
[ -s "$XDG_DATA_HOME/gate/standard/index-jis0208.txt" ]

step legacy check
mkdir tree
printf '\x90\xe0\x96\xbe \xff \x82\xa0\n' > tree/damaged.txt
printf '\x90\xe0\x96\xbe\n' > tree/whole.txt
status=0
legacy check -e '*.txt=shift_jis' tree > rows || status=$?
[ "$status" = 1 ]
grep -q damaged.txt rows

step Neovim
cp tree/damaged.txt edited.txt
nvim --headless -i NONE -n -c 'LegacyEdit shift_jis edited.txt' -c 'normal! Ax' -c write -c 'qa!' 2> messages || { cat messages; exit 1; }
printf '\x90\xe0\x96\xbe \xff \x82\xa0x\n' | cmp - edited.txt

step mount
if [ ! -r /dev/fuse ] || [ ! -w /dev/fuse ]; then
  skip 'there is no /dev/fuse for this user'
  exit 0
fi
mkdir point
legacy mount -e '*.txt=shift_jis' tree point
sed -i 's/ / - /' point/whole.txt 2> /dev/null || true
sed -i 's/$/!/' point/whole.txt
legacy umount point
printf '\x90\xe0\x96\xbe!\n' | cmp - tree/whole.txt

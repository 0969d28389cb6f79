"""How each editor is asked to make the edit of files.py: the words of its command line, which a reader can type."""
import shlex

# The names that Vim and Emacs have for a file's encoding. If one has two that fit, both are tried.
VIM_NAMES = {
    "shift_jis": ("sjis", "cp932"), "iso-2022-jp": ("iso-2022-jp",), "big5": ("big5", "cp950"), "gb18030": ("gb18030",),
    "gbk": ("cp936",), "euc-jp": ("euc-jp", "eucjp-ms"), "windows-1252": ("cp1252",), "utf-16le": ("utf-16le",),
    "utf-8": ("utf-8",),
}
EMACS_NAMES = {
    "shift_jis": ("shift_jis", "cp932"), "iso-2022-jp": ("iso-2022-jp",), "big5": ("big5", "cp950"),
    "gb18030": ("gb18030",), "gbk": ("gbk",), "euc-jp": ("euc-jp", "eucjp-ms"), "windows-1252": ("windows-1252",),
    "utf-16le": ("utf-16le-with-signature",), "utf-8": ("utf-8",),
}

VIM_WAYS = {
    "`++enc`, `:w`": ("e ++enc=NAME FILE", "w"),
    "`++enc`, `:w!`": ("e ++enc=NAME FILE", "w!"),
    "`++enc ++bad=drop`, `:w!`": ("e ++enc=NAME ++bad=drop FILE", "w!"),
    "`++enc ++bad=keep`, `:w!`": ("e ++enc=NAME ++bad=keep FILE", "w!"),
    "no `++enc`, `:w`": ("e FILE", "w"),
    "`++bin`, `:w`": ("e ++bin FILE", "w"),
}
EMACS_WAYS = {
    "coding system given": ('(let ((coding-system-for-read (quote NAME))) (find-file "FILE"))', "(save-buffer)"),
    "given again where it asks": ('(let ((coding-system-for-read (quote NAME))) (find-file "FILE"))',
                                  "(let ((coding-system-for-write buffer-file-coding-system)) (save-buffer))"),
    "none given": ('(find-file "FILE")', "(save-buffer)"),
    "literally": ('(find-file-literally "FILE")', "(save-buffer)"),
}

PROGRAMS = {
    "nvim": ("nvim", "--clean", "-n", "--headless"),
    "vim": ("vim", "--clean", "-n", "-es", "-T", "dumb"),
}


def _commands(commands):
    return [it for command in commands for it in ("-c", command)]


def vim(program, opening, writing, report, word):
    """Writes to the report how often `ABCD` is in the buffer, how often `word` is, a part of the text, and the error of
    the command that saves."""
    count = 'len(split(join(getline(1, "$")), "{}", 1)) - 1'
    return [*PROGRAMS[program], *_commands([
        opening,
        f'call writefile([{count.format("ABCD")}, {count.format(word)}], "{report}")',
        'call cursor(1, 1) | call search("ABCD", "c") | execute "normal! lrx"',
        'call search("ABCD", "c") | execute "normal! llry" | let v:errmsg = ""',
        writing, f'call writefile([v:errmsg], "{report}", "a")', "qall!"])]


def plugin(folder, gate, indexes, label, path, report, word):
    setup = f"lua require('legacy').setup({{ gate = '{gate}', indexes = '{indexes}' }})"
    words = vim("nvim", f"LegacyEdit {label} {path}", "w", report, word)
    at = len(PROGRAMS["nvim"])
    return [*words[:at], "--cmd", f"set runtimepath^={folder}", "-c", setup, *words[at:]]


def emacs(opening, saving, report, word):
    """Writes the same to the report, but no error."""
    look = ('(setq case-fold-search nil make-backup-files nil)'
            f'(let ((found (list (how-many "ABCD" 1) (how-many "{word}" 1))))'
            f' (with-temp-file "{report}" (dolist (it found) (insert (format "%d\\n" it)))))')
    edit = ('(dolist (edit (quote ((3 . "x") (2 . "y"))))'
            ' (goto-char 1) (search-forward "ABCD") (backward-char (car edit)) (delete-char 1) (insert (cdr edit)))')
    return ["emacs", "-Q", "--batch", "--eval", opening, "--eval", f"(progn {look} {edit} {saving})"]


def shell_line(words):
    """The words as they are typed into a shell."""
    return shlex.join(words)

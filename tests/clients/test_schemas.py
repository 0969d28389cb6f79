"""The forms of rows (docs/rows.schema.json), beside the rows that are printed."""
import json
import os
import subprocess
import sys
import unittest

from archives import Folder, run
from checkout import BUILT, TOP

SCHEMA = TOP / "docs" / "rows.schema.json"
KINDS = {"string": str, "integer": int, "boolean": bool, "number": float, "null": type(None), "array": list, "object": dict}


def faults(value, form, where=""):
    """Where a value hasn't the form that a schema says, by the words of schemas that this one uses."""
    if "anyOf" in form:
        return [] if any(not faults(value, it) for it in form["anyOf"]) else [f"{where}: {value!r} is none of several"]
    if not isinstance(value, KINDS[form["type"]]) or isinstance(value, bool) != (form["type"] == "boolean"):
        return [f"{where}: {value!r} is no {form['type']}"]
    if form["type"] == "array":
        return [fault for at, it in enumerate(value) for fault in faults(it, form["items"], f"{where}[{at}]")]
    if form["type"] != "object":
        return []
    members, more = form.get("properties", {}), form.get("additionalProperties", {})
    found = [f"{where}: {it} is missing" for it in form.get("required", ()) if it not in value]
    for name, it in value.items():
        if name not in members and more is False:
            found.append(f"{where}: {name} is unknown")
        else:
            found += faults(it, members.get(name, more), f"{where}.{name}")
    return found


class Schemas(Folder):
    def test_the_file_is_that_of_the_classes(self):
        ran = subprocess.run([sys.executable, str(TOP / "tools" / "schemas"), "--check"], stderr=subprocess.PIPE)
        self.assertEqual((ran.stderr.decode(), ran.returncode), ("", 0))

    def test_a_value_of_another_form_is_seen(self):
        form = json.loads(SCHEMA.read_text(encoding="utf-8"))["$defs"]["check"]
        self.assertEqual(faults({"path": 1}, form)[-1], ".path: 1 is no string")
        self.assertIn(": klingon is unknown", faults({"klingon": 1}, form))

    @BUILT
    def test_rows_that_are_printed(self):
        forms = json.loads(SCHEMA.read_text(encoding="utf-8"))["$defs"]
        for name, content in ("a.txt", b"A\xff\x01\x82\xa0\r\n\n"), (os.fsdecode(b"\xff.txt"), b"b\n"), ("c", b""):
            self.file(f"in/{name}", content)
        tree, rule = str(self.folder / "in"), ["-e", "*.txt=shift_jis"]
        for name, *words in [
            ("check", tree, *rule), ("search", "あ", "-C1", tree, *rule), ("convert", "--to", "utf-8", "--copy", tree, str(self.folder / "out"), *rule),
            ("mend", "--plan", str(self.folder / "plan"), "--damage", "ff=3f", tree, *rule), ("mend", "--apply", str(self.folder / "plan")),
            ("encodings", os.path.join(tree, "a.txt")),
        ]:
            lines = run(name, *words, "--json")[0].splitlines()
            self.assertNotEqual(lines, [], name)
            for line in lines:
                with self.subTest(words, line=line):
                    self.assertEqual(faults(json.loads(line), forms[name]), [])


if __name__ == "__main__":
    unittest.main()

#!/usr/bin/env python3
"""Checks that each wrong body fits the source that it changes, as `rt must-fail` reads it.

usage: tools/edits_fit.py

An edit has a line `file: PATH`, a file of its crate, and then pairs `old: TEXT` and `new: TEXT`. Each old text must be
in that file once, and the edit must change the file. The exit status is 1 if an edit does not fit. `rt ci` reports this
for the edits in must-fail/ only, and fails for none.
"""
import pathlib
import sys


def problem(edit, crate):
    """Returns why the edit does not fit, or None."""
    texts, was, path, old = {}, {}, None, None
    for line in edit.read_text(encoding="utf-8").split("\n"):
        if line.startswith("file: "):
            path, old = crate / line[len("file: "):].strip(), None
            if path not in texts:
                if not path.is_file():
                    return f"{path} is not a file"
                texts[path] = was[path] = path.read_text(encoding="utf-8")
        elif line.startswith("old: "):
            old = line[len("old: "):]
        elif line.startswith("new:"):
            if path is None or old is None:
                return "a 'new:' line before any 'file:' or 'old:' line"
            found = texts[path].count(old)
            if found != 1:
                return f"an 'old:' text is in {path} {found} times: {old.strip()}"
            texts[path] = texts[path].replace(old, line[len("new:"):].removeprefix(" "))
            old = None
    return "it changes nothing" if texts == was else None


def main():
    top = pathlib.Path(__file__).resolve().parent.parent
    count = wrong = 0
    for crate in sorted((top / "crates").iterdir()):
        for folder in ("must-fail", "wrong-bodies"):
            for edit in sorted((crate / folder).glob("**/*.edit")):
                count += 1
                why = problem(edit, crate)
                if why:
                    wrong += 1
                    print(f"{edit.relative_to(top)}: {why}".replace(f"{top}/", ""))
    print(f"{count} edits, {wrong} do not fit")
    sys.exit(1 if wrong else 0)


if __name__ == "__main__":
    main()

#!/usr/bin/python3
"""Compares the texts of crates/forged_miniports with the files of examples that they are.

Rattle has no macro that takes a file's text into a crate, so each kind's source stands twice: as
examples/KIND.asm, to be read and changed, and as a literal in src/KIND.rt, which `forge` assembles.
So does the INF. Without words this says whether they are the same; with `--write` it writes the
literals anew.
"""

import pathlib
import sys

ROOT = pathlib.Path(__file__).resolve().parents[2]
KINDS = ["deserial", "double", "idle", "mute", "scarce"]


def literal_file(what, example, name, text):
    """The text of a module that has an example as a byte string."""
    quoted = text.replace("\\", "\\\\").replace('"', '\\"')
    return f'//! {what}: examples/{example}.\n\n/// The text.\npub const {name}: &[u8] = b"\\\n{quoted}";\n'


def modules():
    """The name of each module, and the text that it should have."""
    for kind in KINDS:
        example = f"{kind}.asm"
        text = (ROOT / "examples" / example).read_text("ascii")
        yield f"{kind}.rt", literal_file(f"The source of kind `{kind}`", example, kind.upper(), text)
    text = (ROOT / "examples" / "miniport.inf").read_text("ascii")
    yield "inf.rt", literal_file("The INF of the test miniports", "miniport.inf", "INF", text)


def main():
    folder = ROOT / "crates" / "forged_miniports" / "src"
    different = []
    for name, text in modules():
        if sys.argv[1:] == ["--write"]:
            (folder / name).write_text(text, "ascii")
        elif (folder / name).read_text("ascii") != text:
            different.append(name)
    print("different: " + " ".join(different) if different else "the same")
    return 1 if different else 0


sys.exit(main())

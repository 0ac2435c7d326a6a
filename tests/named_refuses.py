#!/usr/bin/env python3
"""tests/named_refuses.py: tries tests/named.py on pages about a made-up repository. Right ones pass, and of each wrong one the
wrong line is told: a check that cannot fail shows nothing."""
import pathlib
import sys
import tempfile

from named import Page, Repository

FILES = {
    "crates/box/src/lib.rt": """
pub enum Verdict {
    Sound,
    Room(u64),
}

pub fn fill_box(n: u32) -> Verdict
""",
    "crates/box/specs/Filling.antt": """
pub record Filled (n : ℕ) : Type 0 where
  pub whole : n ≡ 8

abbrev pub Outcome : ℕ → Type 0
Outcome n = Filled n
""",
    "crates/box/proofs/Laws.antt": """
module _ (n : ℕ) where
  pub one-filling : Filled n → n ≡ 8
  one-filling f = inner f
    where
      inner : Filled n → n ≡ 8
      inner f = f .whole
""",
    "crates/box/proofs/Other.antt": """
pub no-filling : ⊥ → Filled 0
no-filling e = absurd e
""",
    "crates/box/must-fail/half_full.edit": "# half full\n",
    "crates/lid/src/lib.rt": "pub fn shut() {\n}\n",
    "crates/lid/must-fail/ajar.edit": "# ajar\n",
    "include/box.h": "uint64_t charopleth_fill(uint32_t n);\n",
    "profiles/a.listing": "jobs 3 rows 9\n",
    "tests/run": "#!/bin/sh\n",
    "docs/NOTES.md": "",
}

THEOREMS = "| theorem | what it says | where |\n|---|---|---|\n"
EDITS = "| function | must-fail edits |\n|---|---|\n"

RIGHT = [
    "`box`, `box::fill_box`, `Verdict::Room`, `Filled`, `Filled.whole`, `Filled n`, `one-filling`, `half_full`",
    "`charopleth_fill`, over\ntwo lines `Outcome\nn`",
    "`requires`, `let Verdict::Sound = v else { return v };`, `rt check box`, `tests/run 100`, `lib.rt`, 1 and `256`",
    "[notes](docs/NOTES.md), crates/NAME/specs, proofs/Laws.antt, `crates/box/src/lib.rt`; box: `half_full`",
    THEOREMS + "| `one-filling`, `no-filling` | n is 8 | box, proofs/Laws.antt, Other.antt |",
    EDITS + "| `box::fill_box` | box: `half_full`; lid: all |\n| `lid::shut` | the same |\n| `lid::shut` | |",
    "    tests/run 100 7    # as in docs/NOTES.md\n    rt ci box",
    "    jobs 3 rows 9\n    ...\n",
    "    crates/NAME/src    code\n    tests, include     tests",
]

WRONG = [
    "`bax`",
    "`box::empty_box`",
    "`lid::fill_box`",
    "`Verdict::Full`",
    "`Filled.half`",
    "`Emptied n`",
    "`two-filling`",
    "`inner`",
    "`quarter_full`",
    "`charopleth_empty`",
    "`let Verdict::Full = v else { return v };`",
    "`rt check bax`",
    "`tests/walk 100`",
    "`crates/box/src/main.rt`",
    "`main.rt`",
    "[notes](docs/NOTE.md)",
    "as tests/walk shows",
    "in proofs/Lows.antt",
    "box: `ajar`",
    THEOREMS + "| `one-filling` | n is 8 | box, proofs/Other.antt |",
    THEOREMS + "| `one-filling` | n is 8 | box, proofs/Laws.antt, Lows.antt |",
    THEOREMS + "| `one-filling` | `two-filling` is another | box, proofs/Laws.antt |",
    EDITS + "| `box::fill_box` | box: `ajar` |",
    EDITS + "| `box::fill_box` | bax: all |",
    EDITS + "| `box::fill_box` | box: some |",
    EDITS + "| `box::empty_box` | box: all |",
    "    tests/walk 100",
    "    docs/NOTES.md",
    "    tests/run 100    # as in docs/NOTE.md",
    "    rt ci bax",
    "    jobs 3 rows 10",
    "    crates/NAME/code    code",
]


def told(top, text):
    (top / "README.md").write_text(text + "\n")
    return Page(Repository(top), "README.md").wrong


def main():
    with tempfile.TemporaryDirectory() as folder:
        top = pathlib.Path(folder)
        for name, text in FILES.items():
            (top / name).parent.mkdir(parents=True, exist_ok=True)
            (top / name).write_text(text)
        (top / "tests/run").chmod(0o755)
        for text in RIGHT:
            if wrong := told(top, text):
                sys.exit(f"named: a right page is refused: {text!r}: {wrong}")
        for text in WRONG:
            wrong = told(top, "Right: `box`.\n\n" + text)
            if [line for line, _ in wrong] != [3 + text.count("\n")]:
                sys.exit(f"named: not told as it is: {text!r}: {wrong}")
    print(f"named: {len(RIGHT)} right pages pass, {len(WRONG)} wrong ones are told")


main()

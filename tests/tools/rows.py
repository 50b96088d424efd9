"""Whether an edit that names one row is tried on that row alone, and on what it names (tools/definitions.py).

    rows.py FOLDER    needs no toolchain; the folder is made

The last line is `N passed, M failed`.
"""
import os
import sys
import types

TOOLS = os.path.join(os.path.dirname(os.path.realpath(__file__)), "..", "..", "tools")
sys.path.insert(0, TOOLS)

import definitions

TEXT = """-- Rows, computed by the definitions.
use Rattle.std.specs.Prelude.{◌≡◌, ℕ, refl}
use Rattle.std.specs.Fmt.{digits}
use Rattle.low.specs.One.{one}
use Rattle.low.specs.Two.{two, more}

abbrev base : ℕ
base = one

-- ---- of the second number, and of first_row and base

-- a row
second_row : two ≡ base
unfolding digits
second_row = refl

abbrev pub twice : {A : Type 0} → ℕ → ℕ
twice n =
    go n

    where
    go n = n

module _ {R : Type 0} where
  below : ℕ

record Lost : Type 0 where
  field : ℕ

first_row : one ≡ 1
first_row = refl

third_row : twice more ≡ 2
third_row = refl
"""
FIRST = """-- Rows, computed by the definitions.
use Rattle.std.specs.Prelude.{◌≡◌, ℕ, refl}
use Rattle.low.specs.One.{one}

module _ {R : Type 0} where
  below : ℕ

first_row : one ≡ 1
first_row = refl
"""
SECOND = """-- Rows, computed by the definitions.
use Rattle.std.specs.Prelude.{◌≡◌, ℕ, refl}
use Rattle.std.specs.Fmt.{digits}
use Rattle.low.specs.One.{one}
use Rattle.low.specs.Two.{two, more}

abbrev base : ℕ
base = one

-- a row
second_row : two ≡ base
unfolding digits
second_row = refl

module _ {R : Type 0} where
  below : ℕ
"""
counts = {True: 0, False: 0}


def same(name, found, wanted):
    counts[found == wanted] += 1
    if found != wanted:
        print(f"FAILED: rows: {name}: {found}, and not {wanted}", flush=True)


def write(path, text):
    os.makedirs(os.path.dirname(path), exist_ok=True)
    with open(path, "w", encoding="utf-8") as it:
        it.write(text)


def read(path):
    with open(path, encoding="utf-8") as it:
        return it.read()


def copies(folder):
    """What a check of two edits has: the row alone beside its definition with the edit, and once what neither turns; not the whole file of rows."""
    low = types.SimpleNamespace(name="low", folder=f"{folder}/low", below=lambda: [])
    for path, text in (("specs/One", "pub one : ℕ\none = 1\n"), ("specs/Two", "use Rattle.low.specs.One.{one}\n\npub two : ℕ\ntwo = one\n\npub more : ℕ\nmore = 1\n"), ("proofs/NumberRows", TEXT)):
        write(f"{low.folder}/{path}.antt", text)
    of_two = definitions.Law(low, low, "rows", "NumberRows", "second_row")
    of_one = definitions.Law(low, low, "rows", "NumberRows", "first_row")
    same("no such row", definitions.Law(low, low, "rows", "NumberRows", "fourth_row").roots, None)
    same("no row is named", definitions.Law(low, low, "rows", "NumberRows").modules.texts["low.proofs.NumberRows"], TEXT)
    made = definitions.Copies(low, f"{folder}/room")
    made.add("turned_two", of_two, {"specs/Two.antt": "use Rattle.low.specs.One.{one}\n\npub two : ℕ\ntwo = 2\n\npub more : ℕ\nmore = 1\n"})
    made.add("turned_one", of_one, {"specs/One.antt": "pub one : ℕ\none = 2\n"})
    made.finish()
    files = sorted(os.path.relpath(os.path.join(at, it), f"{folder}/room") for at, _, names in os.walk(f"{folder}/room") for it in names if it != "Lib.antt")
    same(
        "the files of the check",
        [it for it in files if it.count("/") == 2 or it == "specs/One.antt" or "Rows" in it or "Two" in it],
        ["proofs/turned_one/NumberRows.antt", "proofs/turned_two/NumberRows.antt", "specs/One.antt", "specs/turned_one/One.antt", "specs/turned_two/Two.antt"],
    )
    same("the row that refuses the first", read(f"{folder}/room/proofs/turned_one/NumberRows.antt"), FIRST.replace("low.specs.One", "low.specs.turned_one.One"))
    same("the row that refuses the second", read(f"{folder}/room/proofs/turned_two/NumberRows.antt"), SECOND.replace("low.specs.Two", "low.specs.turned_two.Two"))


def main(words):
    if len(words) != 1:
        print(__doc__, file=sys.stderr)
        return 2
    same("a row that names nothing of the file", definitions.row_alone(TEXT, "first_row"), FIRST)
    same("a row that names another declaration", definitions.row_alone(TEXT, "second_row"), SECOND)
    same("what goes on behind an empty line", "    where\n    go n = n\n" in definitions.row_alone(TEXT, "third_row"), True)
    same("a row that isn't there", definitions.row_alone(TEXT, "Rows"), None)
    write(f"{words[0]}/one.edit", "rows: NumberRows\nrow: second_row\nfile: specs/Two.antt\nold: one\nnew: 2\n")
    same("what an edit names", definitions.told_by(f"{words[0]}/one.edit"), ("rows", "NumberRows", "second_row"))
    write(f"{words[0]}/two.edit", "law: one::law\nfile: specs/Two.antt\nold: one\nnew: 2\n")
    same("what another names", definitions.told_by(f"{words[0]}/two.edit"), ("law", "one::law", ""))
    copies(words[0])
    print(f"{counts[True]} passed, {counts[False]} failed")
    return 1 if counts[False] else 0


if __name__ == "__main__":
    sys.exit(main(sys.argv[1:]))

"""Holds README and pages of docs/ to the files that they speak of.

On these pages a code span `Rows.coefficient` names what a file Rows.antt below crates/*/specs or crates/*/proofs
declares, a code span `limits::portion` names what the code of the crate limits declares, and a code span
`crates/market/specs/Rows.antt` names a file. Each such span is one check. So is each link to a file, each block of code, whose
lines must stand together in a file below crates/*/specs, and the length of the page. A block that is marked, as text or with a
language in which users write, quotes no such file.
The script first tries itself on a small tree of its own.

    python3 names.py TOP      TOP is the top of the repository
"""

import re
import sys
import tempfile
from pathlib import Path

# with the most lines that each may have
PAGES = {"docs/READING.md": 180, "docs/CHANGING.md": 200, "docs/MODEL.md": 350, "docs/FORMAT.md": 320}
FILES_ONLY = {"README.md": 190}  # pages for users, which need not name a definition
UNQUOTED = {"```text", "```json", "```julia"}

NAME = re.compile(r'«[^»]*»|[^\s(){}.;,@"«»]+')  # what antt takes for a name
MARKS = {"pub", "unfoldable", "abbrev", "axiom"}
NAMING_SPAN = re.compile(r"([A-Z][\w′-]*)\.(\S+)")
CODE_SPAN = re.compile(r"([a-z]\w*)::(\w+(?:::\w+)?)")
PATH_SPAN = re.compile(r"(\.ci|bench|crates|docs|examples|include|packaging|python|reference|tests)/\S*|\S+\.(antt|c|cff|h|md|py|rs|rt|txt)")


def declared(text):
    """The names that a file of antt declares."""
    names = set()
    block = None  # the indentation of the data or record to which the line may belong
    text = re.sub(r"\{-.*?-\}", "", text, flags=re.DOTALL)
    for line in text.splitlines():
        line = re.sub(r"(^|\s)--.*", "", line).rstrip()
        if not line:
            continue
        indentation = len(line) - len(line.lstrip())
        if block is not None and indentation <= block:
            block = None
        head, *typed = re.split(r"\s:(?=\s|$)", line, maxsplit=1)
        words = re.sub(r"\s\{[^{}]*\}$", "", head).split()  # without the universe levels
        while words and words[0] in MARKS:
            words.pop(0)
        if len(words) > 1 and words[0] in ("data", "record") and NAME.fullmatch(words[1]):
            names.add(words[1])
            block = indentation
        elif typed and (len(words) == 1 or block is not None) and all(map(NAME.fullmatch, words)):
            names.update(words)  # a signature, or the constructors or fields of one line
    return names


def wrong_name(top, stem, name):
    """What is wrong with a name, or None."""
    files = [f for part in ("specs", "proofs") for f in top.glob(f"crates/*/{part}/**/{stem}.antt")]
    if not files:
        return f"there is no file {stem}.antt below crates/*/specs or crates/*/proofs"
    if not any(name in declared(f.read_text(encoding="utf-8")) for f in files):
        return "not declared in " + ", ".join(sorted(str(f.relative_to(top)) for f in files))
    return None


def wrong_item(top, crate, item):
    """What is wrong with a function, type or constant of a crate's code, or None."""
    code = "\n".join(f.read_text(encoding="utf-8") for f in sorted(top.glob(f"crates/{crate}/src/**/*.rt")))
    if not code:
        return f"there is no code below crates/{crate}/src"
    *owner, name = item.split("::")
    found = re.search(rf"\b(fn|struct|enum|const) {name}\b", code) and all(re.search(rf"\bimpl {o}\b", code) for o in owner)
    return None if found else f"not declared below crates/{crate}/src"


def wrong_span(top, span):
    """Whether a code span names something, and what is wrong with it, or None."""
    if re.search(r"(^|/)[A-Z]+(/|$)", span):
        return False, None  # a pattern, as crates/NAME/src
    if PATH_SPAN.fullmatch(span):
        return True, None if (top / span).exists() else "there is no such file"
    if match := NAMING_SPAN.fullmatch(span):
        return True, wrong_name(top, *match.groups())
    if match := CODE_SPAN.fullmatch(span):
        return True, wrong_item(top, *match.groups())
    return False, None


def wrong_block(top, block):
    """What is wrong with a block of code that a page quotes, or None."""
    files = top.glob("crates/*/specs/**/*.antt")
    if any("\n".join(block) in f.read_text(encoding="utf-8") for f in files):
        return None
    return "these lines stand in no file below crates/*/specs"


def check(top, page, most_lines, names_wanted=True):
    """Checks a page of a tree; gives the number of checks that passed, and a line for each that did not."""
    if not (top / page).is_file():
        return 0, [f"{page}: there is no such page"]
    lines = (top / page).read_text(encoding="utf-8").splitlines()
    problems, names, block, quoted = [], 0, None, False
    for number, line in enumerate(lines, start=1):
        at = f"{page}:{number}:"
        if line.lstrip().startswith("```"):
            if block is None:
                block, quoted = [], line.strip() not in UNQUOTED
                continue
            if quoted:
                problem = wrong_block(top, block)
                problems.append(problem and f"{at} {problem}")
            block = None
        elif block is not None:
            block.append(line)
        elif line.count("`") % 2:
            problems.append(f"{at} a code span does not end on its line, so its names cannot be checked")
        else:
            for target in re.findall(r"\]\(([^)\s#]+)\)", line):
                problems.append(None if (top / page).parent.joinpath(target).exists() else f"{at} the link to {target} leads nowhere")
            for span in re.findall(r"`([^`]+)`", line):
                is_name, problem = wrong_span(top, span)
                if is_name:
                    names += not PATH_SPAN.fullmatch(span)
                    problems.append(problem and f"{at} `{span}`: {problem}")
    if block is not None:
        problems.append(f"{page}: a block of code does not end")
    if names == 0 and names_wanted:
        problems.append(f"{page}: it names no definition")
    problems.append(f"{page}: it has {len(lines)} lines, and may have {most_lines}" if len(lines) > most_lines else None)
    wrong = [p for p in problems if p is not None]
    return len(problems) - len(wrong), wrong


SAMPLE = """\
-- commented : ℕ
{- hidden : ℕ
   hidden-too : ℕ -}
pub data Curve : Type 0 where
  operating regulating-up : Curve

pub record Offer {ℓ} (A : Type ℓ) : Type ℓ where
  pub price′ : ℕ  -- trailing : ℕ

module _ (n : ℕ) where
  unfoldable abbrev pub _≤₂_ {ℓ κ} : ℕ → Type (ℓ ⊔ κ)
  m ≤₂ k = two words : ℕ

Ω-bound :
  (applied : ℕ) → ℕ
"""

SAMPLE_CODE = """\
pub const MOST: usize = 4;

pub struct Kw(i64);

impl Kw {
    pub fn of(n: i64) -> Kw {
        Kw(n)
    }
}

fn lowest(a: Kw) -> Kw {
    a
}
"""

# a page's lines, and whether each is right; None: the line holds nothing to check
SAMPLE_PAGE = [
    ("| a curve | `Rows.Curve` |", True),
    ("`Rows.operating`", True),
    ("`Rows.regulating-up`", True),
    ("`Rows.Offer`", True),
    ("`Rows.price′`", True),
    ("`Rows._≤₂_`", True),
    ("`Rows.Ω-bound`", True),
    ("`crates/one/specs/deep/Rows.antt`", True),
    ("`Rows.curve`", False),
    ("`Rows.commented`", False),
    ("`Rows.hidden`", False),
    ("`Rows.hidden-too`", False),
    ("`Rows.trailing`", False),
    ("`Rows.words`", False),
    ("`Rows.applied`", False),
    ("`Rows.Curve.operating`", False),
    ("`Columns.Curve`", False),
    ("`crates/one/specs/Rows.antt`", False),
    ("`Rows.antt`", False),
    ("`one::lowest`", True),
    ("`one::Kw::of`", True),
    ("`one::MOST`", True),
    ("`one::highest`", False),
    ("`one::Cents::of`", False),
    ("`two::lowest`", False),
    ("`include/one.h`", False),
    ("`gone.cff`", False),
    ("[a page](page.md)", True),
    ("[a page](gone.md)", False),
    ("`a span that is left open", False),
    ("`rt ci`, `n`, `r .field`, `Rows.gone n`, `crates/NAME/src/lib.rt`, MW/min, Rows.gone", None),
]


def self_test():
    """Tries this script on a small tree; gives the same as check."""
    passed, wrong = 0, []

    def expect(what, is_so):
        nonlocal passed
        if is_so:
            passed += 1
        else:
            wrong.append(f"self-test: {what}")

    with tempfile.TemporaryDirectory() as room:
        top = Path(room)
        (top / "crates/one/specs/deep").mkdir(parents=True)
        (top / "crates/one/specs/deep/Rows.antt").write_text(SAMPLE, encoding="utf-8")
        (top / "crates/one/src").mkdir()
        (top / "crates/one/src/lib.rt").write_text(SAMPLE_CODE, encoding="utf-8")

        def check_page(lines):
            (top / "page.md").write_text("".join(f"{line}\n" for line in lines), encoding="utf-8")
            return check(top, "page.md", 50)

        expect("no page passes", check(top, "page.md", 50) == (0, ["page.md: there is no such page"]))
        for line, right in SAMPLE_PAGE:
            good, bad = check_page(["`Rows.Curve`", line])  # two passes are of the first line and of the length
            outcome = {(3, 0): True, (2, 1): False, (2, 0): None}.get((good, len(bad)))
            expect(f"{line}: {good} passed, {bad}", outcome is right and all(b.startswith("page.md:2: ") for b in bad))
        expect("a page without a name passes", len(check_page(["`page.md`"])[1]) == 1)
        expect("a page for users without a name fails", check(top, "page.md", 50, False) == (2, []))
        expect("a page of 50 lines fails", check_page(["`Rows.Curve`"] * 50) == (51, []))
        expect("a page of 51 lines passes", len(check_page(["`Rows.Curve`"] * 51)[1]) == 1)
        expect("a code block that is left open passes", len(check_page(["`Rows.Curve`", "```"])[1]) == 1)
        quoted = ["pub data Curve : Type 0 where", "  operating regulating-up : Curve"]
        expect("a quoted block fails", check_page(["`Rows.Curve`", "```", *quoted, "```"]) == (3, []))
        expect("a block of other lines passes", len(check_page(["`Rows.Curve`", "```", *reversed(quoted), "```"])[1]) == 1)
        for mark in sorted(UNQUOTED):
            expect(f"a block marked {mark} fails", check_page(["`Rows.Curve`", mark, "bytes → figures", "```"]) == (2, []))
        expect("a block with another mark passes", len(check_page(["`Rows.Curve`", "```antt", "bytes → figures", "```"])[1]) == 1)
    return passed, wrong


def main():
    passed, failed = 0, 0
    top = Path(sys.argv[1])
    pages = [check(top, page, most) for page, most in PAGES.items()] + [check(top, page, most, False) for page, most in FILES_ONLY.items()]
    for good, wrong in (self_test(), *pages):
        passed += good
        failed += len(wrong)
        for line in wrong:
            print(line)
    print(f"{passed} passed, {failed} failed")
    return 1 if failed or not passed else 0


if __name__ == "__main__":
    sys.exit(main())

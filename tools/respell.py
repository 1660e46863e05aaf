#!/usr/bin/env python3
"""Brings the names of this repository's definitions and lemmas to the spelling that Rattle's library has.

usage: python3 tools/respell.py        at the top of the repository, once, right after port.py

Words are in snake case, types and modules in upper camel case. A dash stays in a lemma's name where it joins the names of two
functions. Only .antt files and the clauses and `ghost use` lines of .rt files are written. A name that comes from Rattle source, or from
another library, keeps its spelling. Two names that fall together are reported, and then nothing is written.
"""
import os
import re
import sys

# constructors and functions that stand in capitals: the word alone would be taken
CHOSEN = {
    "Balance": "balance_row", "Market": "market_row", "Zone": "zone_row", "Flowgate": "flowgate_row", "Limited": "limit_row",
    "Cleared": "cleared_quantity", "Provided": "provided_quantity",
    "EnergyStep": "priced_energy_step", "Whole": "priced_whole", "CurveStep": "priced_curve_step",
    "MAX": "max_of", "MIN": "min_of", "HI": "hi_of", "LO": "lo_of", "RAMP": "ramp_of", "SHARE": "share_of", "LMP": "lmp_of",
    "K": "worked_k", "Q": "worked_q",
    "K-accepted": "worked_k_accepted", "K-promise": "worked_k_promise",
    "±": "either_way",
}
# chosen names of functions that are variables or types elsewhere: only where they are brought in or declared
SCOPED = {"K", "Q", "Zone", "Market", "Whole", "Limited", "Cleared", "Provided", "Balance", "Flowgate", "P", "N"}
CHOSEN |= {"P": "plus_part", "N": "minus_part"}
# a dash joins two of these
JOINED = set("sum total each all any length take drop append map across upto replicate set abs add sub mul neg min max pos fits le lt eq and or not "
             "if when kept scale swap sorted count ext mono size total digits range plus_part minus_part nonneg antisymm trans assoc comm left_comm none one "
             "minus_one zero suc cond E G l r ln rn nil".split())
TOKEN = r"[^\s(){}\[\],;.⌜⌝]+"
KEYWORDS = {"let", "in", "use", "module", "where", "abbrev", "pub", "unfoldable", "record", "data", "unfolding", "ruleset", "elim", "as", "open"}


def crates():
    for folder, dirs, files in os.walk("crates"):
        dirs[:] = sorted(d for d in dirs if d != "out")
        for f in sorted(files):
            if f.endswith((".rt", ".antt")):
                yield os.path.join(folder, f)


def declared(path, text):
    """The names that a file declares, with their kinds."""
    block, indent = None, 0
    for line in text.split("\n"):
        if not line.strip() or line.strip().startswith("--"):
            continue
        here = len(line) - len(line.lstrip())
        if block and here <= indent:
            block = None
        m = re.match(r"^\s*(?:pub )?(record|data)\s+(\S+)", line)
        if m and not line.strip().startswith("record {"):
            block, indent = m.group(1), here
            yield m.group(2), "type"
            continue
        m = re.match(r"^\s*(?:pub )?ruleset\s+(\S+)", line)
        if m:
            yield m.group(1), "lemma"
            continue
        m = re.match(r"^\s*((?:(?:abbrev|unfoldable|pub)\s+)*)([^(){}\[\],;.:=λ→]+?)\s*:\s", line)
        if m and not (KEYWORDS & set(m.group(2).split())):
            for name in m.group(2).split():
                kind = {"record": "field", "data": "constructor"}.get(block) or ("definition" if "/specs/" in path else "lemma")
                yield name, kind


def snake(name):
    return re.sub(r"(?<=[a-z0-9])(?=[A-Zℤ])", "_", name).lower() if re.match(r"^[a-z]", name) else name


def respelled(name, kind):
    if kind == "type":
        return name
    if name in CHOSEN:
        return CHOSEN[name]
    if re.match(r"^[A-Z]", name) and "-" not in name:
        return name  # a fact
    parts = name.split("-")
    if "" in parts or any(re.match(r"^[*+≤]", p) for p in parts):
        joined = name  # an operator's law
        return joined
    parts = [CHOSEN[p] if p in ("P", "N") else (p if re.match(r"^[A-Z]", p) else snake(p)) for p in parts]
    if kind in ("field", "definition", "constructor"):
        return "_".join(parts)
    out = parts[0]
    for a, b in zip(parts, parts[1:]):
        out += ("-" if a in JOINED and b in JOINED else "_") + b
    return out


def clauses(text):
    """The parts of a .rt file that are antt, as pairs of places."""
    for m in re.finditer(r"^\s*(?:pub )?ghost use [^;]*;", text, re.M):
        yield m.span()
    for m in re.finditer(r"\b(?:requires|ensures|invariant)\*?(?: [a-z_0-9]+)? \{|\bghost [a-z_0-9]+: \{", text):
        depth, i = 1, m.end()
        while depth and i < len(text):
            depth += {"{": 1, "}": -1}.get(text[i], 0)
            i += 1
        yield m.end(), i - 1


def main():
    texts = {p: open(p, encoding="utf-8").read() for p in crates()}
    names, taken, own, kinds = {}, {}, {}, {}
    for p, t in texts.items():
        if not p.endswith(".antt"):
            continue
        proof = os.path.basename(p) in ("Proof.antt", "Answers.antt", "Invariants.antt")
        for name, kind in declared(p, t):
            own.setdefault(p, set()).add(name)
            if proof and kind == "lemma" and not re.search(r"[a-z][A-Z]", name):
                continue  # named by what is proved: not ours to choose
            new = respelled(name, kind)
            old = names.get(name)
            if old is not None and old != new:
                new = min(old, new, key=lambda n: n.count("-"))
            names[name] = new
            kinds.setdefault(name, set()).add(kind)
    # what comes from Rattle source or from another library keeps its spelling
    for p, t in texts.items():
        for m in re.finditer(r"\buse\s+([\w.'«»+-]+?)\.\{([^}]*)\}", t):
            if ".declared." in m.group(1) or not m.group(1).startswith("Rattle.") or m.group(1).startswith("Rattle.std"):
                for name in re.split(r"[,\s]+", m.group(2)):
                    if name in names and name not in SCOPED and names[name] != name:
                        print(f"kept: {name} of {m.group(1)}, in {p}")
                        names[name] = name
    # a lemma that would have its function's name gets _lem; a field stands behind a dot, where no function does
    for name, new in names.items():
        taken.setdefault(new, []).append(name)
    for new, olds in sorted(taken.items()):
        named = [o for o in olds if kinds[o] - {"field"}]
        lemmas = [o for o in named if kinds[o] <= {"lemma", "field"}]
        if len(named) > 1:
            for o in lemmas if len(lemmas) < len(named) else sorted(lemmas)[1:]:
                names[o] = new + "_lem"
                print(f"fell together: {o} is {names[o]} beside {', '.join(n for n in named if n != o)}")
            left = [o for o in named if names[o] == new]
            if len(left) > 1:
                print(f"fall together: {', '.join(left)} as {new}")
    change = {o: n for o, n in names.items() if o != n}
    if "--list" in sys.argv:
        for o, n in sorted(change.items()):
            print(f"{o} -> {n}")
        return 0
    count = 0
    for p, t in texts.items():
        brought = set(own.get(p, ()))
        for m in re.finditer(r"\buse\s+([\w.'«»+-]+?)\.\{([^}]*)\}", t):
            if m.group(1).startswith("Rattle.") and not m.group(1).startswith("Rattle.std") and ".declared." not in m.group(1):
                brought |= set(re.split(r"[,\s]+", m.group(2)))
        proof = os.path.basename(p) in ("Proof.antt", "Answers.antt", "Invariants.antt")

        def turn(m):
            w = m.group(0)
            if w in SCOPED and w not in brought:
                return w
            if proof and w in own.get(p, ()) and not re.search(r"[a-z][A-Z]", w):
                return w
            return change.get(w, w)

        def antt(s):
            return "\n".join(l if l.strip().startswith("--") else (turn_line(l)) for l in s.split("\n"))

        def turn_line(l):
            code, dash, said = re.match(r"^(.*?)((?:(?<=\s)|^)--\s.*)?$", l).group(1, 2, 2)
            m = re.match(r"^(\s*(?:pub )?(?:ghost )?use\s+)([\w.'«»+-]+?)(\.\{.*)$", code)
            if m:
                if not m.group(2).startswith("Rattle.") or m.group(2).startswith("Rattle.std") or ".declared." in m.group(2):
                    return l
                return m.group(1) + m.group(2) + re.sub(TOKEN, turn, m.group(3)) + (dash or "")
            if re.match(r"^\s*(?:pub )?use\s", code):
                return l
            code = re.sub(r"(?<![^\s(){}\[\],;])tie\.[^\s(){}\[\],;.]+", lambda k: "\0" + k.group(0), code)
            code = re.sub(r"\0[^\s(){}\[\],;]+|" + TOKEN, lambda k: k.group(0) if k.group(0)[0] == "\0" else turn(k), code)
            return code.replace("\0", "") + (dash or "")

        if p.endswith(".antt"):
            new = antt(t)
        else:
            new, at = "", 0
            for a, e in sorted(set(clauses(t))):
                if a < at:
                    continue
                new += t[at:a] + antt(t[a:e])
                at = e
            new += t[at:]
        if new != t:
            count += 1
            with open(p, "w", encoding="utf-8") as f:
                f.write(new)
    print(f"respelled: {len(change)} names, {count} files")
    return 0


if __name__ == "__main__":
    raise SystemExit(main())

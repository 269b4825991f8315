#!/usr/bin/env python3
"""Spells the definitions and lemmas of this repository as today's Rattle does. Ran once, after the kit's port.py.

    tools/respell.py            rewrites .antt, .rt and .edit files below crates/, and names in backquotes of docs/ and README.md
    tools/respell.py --check    prints the names that it would change, and those that would fall together

A word in camel case becomes snake case: allZero is all_zero. Dashes stay where each joins two names, and are `_` where a part
is a plain word: length-fields, but lent_part. Types, modules and the functions of src/ keep their names.
"""
import re
import subprocess
import sys
from pathlib import Path

ROOT = Path(__file__).resolve().parent.parent
STOP = r"\s(){}.;,@\"«»`|"
NAME = rf"[^{STOP}]+"
TOKEN = re.compile(rf"(?<![^{STOP}]){NAME}(?![^{STOP}])")
DECLARED = re.compile(rf"(?m)^[ ]*((?:abbrev |unfoldable |pub )*)({NAME})(?: \{{[^{{}}\n]*\}})* :(?= |$)")
ALIAS = re.compile(rf"({NAME}) as ({NAME})")
# names of the logic and of std that lemmas are called after
LIBRARY = set(
    "length get_or get set take drop append reverse map replicate cons nil suc zero add sub mul div rem pow paste cond eqb leb ltb and or not le lt eq ne"
    " iff concat min max of_z to_z pos neg".split()
)
# where the plain rule would meet another name: a lemma called as its definition gets `_lem`
CHOSEN = {
    name: name.replace("-", "_") + "_lem"
    for name in "bench-rows emptied-by gone-since head-for info-answer keys-rise late-number looked-up lookup-right lost-by names-first"
    " no-owner no-status on-every read-rows samples-answer set-of spares-in tracker-late turned-away left_by found_in".split()
}
# facts, which begin with a capital
LOWER_FACTS = {"notBefore"}
# parameters in camel case
PARAMETERS = {"recordOf", "bySource", "restNot", "lostFormed", "walkedBy"}
# what is chosen in one file alone
CHOSEN_IN = {
    "crates/abandonment/proofs/Steps.antt": {"by_key": "reached_by_key"},
    "crates/instance_reach/proofs/Turns.antt": {"by_key": "reached_by_key"},
}


def files():
    below = ROOT / "crates"
    return sorted(p for p in below.rglob("*") if p.suffix in (".antt", ".rt", ".edit") and "out" not in p.parts)


def snake(word):
    word = re.sub(r"getD\b", "get_or", word)
    return re.sub(r"(?<=[a-z0-9])[A-Z]+", lambda m: "_" + m[0].lower(), word) if word[:1].islower() else word


def spelled(name, heads):
    if name in CHOSEN:
        return CHOSEN[name]
    if not re.fullmatch(r"[A-Za-z0-9_\-'₀-₉ℕℤ]+", name):
        return name
    parts = [snake(part) for part in name.split("-")]
    return ("-" if all(part in heads for part in parts) else "_").join(parts)


def declared():
    """The names that specs/ and proofs/ declare, and those of specs/ alone in their new spelling."""
    found, heads = set(), set(LIBRARY)
    for path in files():
        if path.suffix != ".antt" or path.name == "Proof.antt":
            continue
        text = path.read_text()
        names = {name for _, name in DECLARED.findall(text)} | {alias for _, alias in ALIAS.findall(text)}
        found |= names
        if "specs" in path.parts:
            heads |= {snake(name) for name in names if "-" not in name}
    return found, heads


def table():
    found, heads = declared()
    new = {name: spelled(name, heads) for name in found if not name[:1].isupper()}
    new |= {name: name[:1].upper() + name[1:] for name in found & LOWER_FACTS}
    new |= {name: snake(name) for name in PARAMETERS}
    return {old: word for old, word in new.items() if old != word}, found


def of_libraries(text):
    """The names that a file takes from the logic or from std: these keep their spelling in it."""
    taken = set()
    for path, items in re.findall(r"(?m)\buse ([\w.]+)\.\{([^}]*)\}", text):
        if not path.startswith("Rattle.") or path.split(".")[1] in ("std", "core"):
            taken |= {item.split(" as ")[0].strip() for item in items.split(",")}
    return taken


def turned(text, names):
    kept = of_libraries(text)
    return TOKEN.sub(lambda m: m[0] if m[0] in kept else names.get(m[0], m[0]), text)


def in_backquotes(text, names):
    return re.sub(r"`[^`\n]+`", lambda m: turned(m[0], names), text)


def clashes(names, found):
    for old, new in sorted(names.items()):
        if new in found:
            yield f"{old}: {new} is declared as well"
    news = {}
    for old, new in names.items():
        news.setdefault(new, []).append(old)
    for new, olds in sorted(news.items()):
        if len(olds) > 1:
            yield f"{new}: {' '.join(olds)}"
    for path in files():
        text = re.sub(r"//.*|--.*", "", path.read_text())
        here = set(TOKEN.findall(text))
        free = {m[0] for m in re.finditer(rf"(?<![^\s(){{}};,@«»]){NAME}(?![^{STOP}])(?! =)(?!\()", text)}
        for old in sorted(here & names.keys()):
            if names[old] in free and names[old] not in CHOSEN_IN.get(str(path.relative_to(ROOT)), {}):
                yield f"{path.relative_to(ROOT)}: {old} would meet {names[old]}"


def main(words):
    names, found = table()
    if words == ["--check"]:
        for old, new in sorted(names.items()):
            print(old, new)
        for line in clashes(names, found):
            print("clash:", line)
        return 0
    if words:
        print(__doc__, file=sys.stderr)
        return 2
    code = {old: new for old, new in names.items() if "-" not in old}
    for path in files():
        old = path.read_text()
        here = {**names, **CHOSEN_IN.get(str(path.relative_to(ROOT)), {})}
        new = turned(old, code if path.suffix == ".rt" else here)
        if new != old:
            path.write_text(new)
    listed = subprocess.run(["git", "ls-files", "*.md"], cwd=ROOT, capture_output=True, text=True, check=True).stdout
    for path in (ROOT / name for name in listed.splitlines()):
        old = path.read_text()
        new = in_backquotes(old, names)
        if new != old:
            path.write_text(new)
    return 0


sys.exit(main(sys.argv[1:]))

#!/usr/bin/env python3
"""Turns each proofs/F/Proof.antt of a crate into Invariants.antt and Answers.antt. Ran once, for the port of docs/PORT.md.

    rt check --generated DIR --old-names      in the crate's folder: DIR/names.json lists each goal's old and new name
    tools/turn_proofs.py CRATE_FOLDER DIR/names.json [FUNCTION ..]
    tools/turn_proofs.py CRATE_FOLDER --restore CHECKS_OUTPUT

Short answers that the check finds by itself are left out, and kept in out/left_out.json; --restore writes those back whose goals
a check's output names as not proved. What it could not place is printed.
"""
import json
import re
import sys
from pathlib import Path

STOP = r"\s(){}.;,@\"«»"
NAME = rf"[^{STOP}]+"
HEAD = re.compile(rf"^(?:(?:abbrev|pub|unfoldable) )*({NAME})(?: \{{[^{{}}\n]*\}})* :(?= |$)")
USE = re.compile(r"^use ([^\s{]+?)(?:\.\{([^}]*)\}| as (\S+))?$")
SHORT = {"omega arith", "search rules", "search needs", "refl", "cc", "tt"}


OF_START = {re.sub("_", "", it): it for it in ("args", "ranges", "requires", "lifetimes", "well_formed", "utf8", "type_inv")}


def plain(word):
    return re.sub(r"[-_·]", "", word)


# the fields and parameters of the source, and the words of Rattle's own that had a dash
IDENTIFIERS = {"type_inv", "well_formed", "not_alive"}
for _path in (Path(__file__).resolve().parent.parent / "crates").glob("*/src/**/*.rt"):
    IDENTIFIERS |= {name for name in re.findall(r"(?<![\w.])([a-z]\w*_\w*):", _path.read_text())}


class Item:
    def __init__(self, comment, lines):
        self.comment, self.lines = comment, lines
        m = HEAD.match(lines[0])
        self.name = m[1] if m else None
        text = "\n".join(lines)
        if m:
            # the signature goes on until `unfolding` or the first line of the definition
            end = next((i for i, l in enumerate(lines) if i and (l.startswith("unfolding ") or re.match(rf"^{re.escape(self.name)}(?=[\s])", l))), len(lines))
            self.signature = " ".join(" ".join(lines[:end]).split())
            self.unfolding = [l for l in lines[end:] if l.startswith("unfolding ")]
            self.body = [l for l in lines[end:] if not l.startswith("unfolding ")]
        else:
            self.signature, self.unfolding, self.body = "", [], lines


def items(text):
    """The use lines, the comment at the head, and the items of a file."""
    lines = text.split("\n")
    head, uses, out, comment, i = [], [], [], [], 0
    while i < len(lines) and (lines[i].startswith("--") or not lines[i].strip()):
        head.append(lines[i])
        i += 1
    current = None
    while i < len(lines):
        line = lines[i]
        if line.startswith("use ") and current is None:
            uses.append(line)
        elif line.startswith("use "):
            uses.append(line)
        elif not line.strip():
            if current:
                out.append(Item(*current))
                current = None
        elif line.startswith("--"):
            if current:
                out.append(Item(*current))
                current = None
            comment.append(line)
        elif current is None:
            current = (comment, [line])
            comment = []
        elif HEAD.match(line) and not line.startswith(" "):
            out.append(Item(*current))
            current = ([], [line])
        else:
            current[1].append(line)
        i += 1
    if current:
        out.append(Item(*current))
    return [h for h in head if h.strip()], uses, out


def parted(text):
    """The words of what stands in brackets after tie.spec."""
    words, word, depth = [], "", 0
    for ch in text:
        if ch in "([{":
            depth += 1
        if ch in ")]}":
            depth -= 1
            if depth < 0:
                break
        if ch in " \n" and depth == 0:
            if word:
                words.append(word)
            word = ""
        else:
            word += ch
    if word:
        words.append(word)
    return words


class Function:
    def __init__(self, crate, folder, entry):
        self.crate, self.folder, self.entry = crate, folder, entry
        self.said = []
        texts = [p.read_text() for p in sorted((folder / ".." / ".." / "src").rglob("*.rt"))]
        found = [m for t in texts for m in [re.search(rf"\bfn {folder.name}\b.*?^\}}", t, re.S | re.M)] if m]
        self.source = found[0][0] if found else ""
        self.places = {}
        columns = [entry[name] for name in ("places", "places_by_name", "typed", "arms", "clauses")]
        for (old, parent, step, callee, _), new, typed, arm, clause in zip(*columns):
            self.places[old] = {"parent": parent, "step": step, "new": new, "typed": typed, "arm": arm, "callee": callee, "clause": clause}
        self.by_plain = {}
        for old in self.places:
            self.by_plain.setdefault(plain(old), old)
        self.path = ".".join(folder.relative_to(folder.parents[len(folder.parents) - 1]).parts)

    def say(self, text):
        self.said.append(text)

    def up(self, place):
        while place is not None:
            yield place
            place = self.places[place]["parent"]

    def step(self, place, field, ups):
        """The new name of a step that a place's record reaches."""
        chain = list(self.up(place))
        # respell.py may have taken a step's name for a lemma's
        words = {plain(field).lower(), plain(re.sub(r"_lem$", "", field)).lower()}
        fits = [(i, p) for i, p in enumerate(chain) if self.places[p]["step"][0] and plain(self.places[p]["step"][0]).lower() in words]
        if not fits:
            return None, None
        if len(fits) > 1:
            fits.sort(key=lambda it: abs(it[0] - ups))
        return self.places[fits[0][1]]["step"][1], fits[0][1]

    def arm(self, place, field, rest):
        """A fact that now stands with the arm of a match: the arm's own record, or that the value is that variant."""
        for at in self.up(place):
            arm = self.places[at]["arm"]
            for new, step, path in (arm[2] if arm else []):
                if plain(step) == plain(field) and rest[: len(path)] == path:
                    return [arm[0], new] + rest[len(path):]
        return None

    def chain(self, root, place, fields, goal=None):
        """root.before..F.G as today's: the place's record is flat."""
        ups = 0
        while fields and fields[0] == "before":
            ups += 1
            fields = fields[1:]
        if not fields:
            return root + ".before" * ups
        first, rest = fields[0], fields[1:]
        if plain(first) in OF_START:
            first = OF_START[plain(first)]
            for old, new in self.entry["args"]:
                if rest and old == f".{first} .{rest[0]}":
                    rest = [new.split(".")[-1]] + rest[1:]
                    break
            return ".".join([root, first] + rest)
        arm = self.arm(place, first, rest) or goal and self.arm(goal, first, rest)
        if arm:
            return ".".join([root] + arm)
        new, at = self.step(place, first, ups)
        if new is None and goal:
            new, at = self.step(goal, first, ups)
        if new is None:
            self.say(f"no step {first} above {place}")
            return ".".join([root, first] + rest)
        if rest[:1] == ["given"]:
            variables = self.places[at]["typed"]
            if variables:
                return ".".join([root, "type_inv", variables[0][0]] + rest[1:])
        if rest[:1] in (["new"], ["auto"]) and len(rest) > 1 and rest[1].isdigit():
            # what was lent stood as pairs in pairs: .new.1.1.0 is the third argument
            parameters = self.entry["params"].get(self.places[at]["callee"] or "", [])
            k = next((i for i, it in enumerate(rest[1:]) if it == "0"), None)
            if k is not None and k < len(parameters):
                rest = [rest[0], parameters[k]] + rest[k + 2:]
        clause = self.places[at]["clause"]
        names = clause["fields"] if clause else []
        if rest[:1] == ["ensures"] and names:
            if len(rest) > 1 and rest[1].isdigit() and int(rest[1]) < len(names):
                rest = ["ensures", names[int(rest[1])]] + rest[2:]
            elif len(names) == 1 and rest[1:2] != names:
                rest = ["ensures", names[0]] + rest[1:]
        return ".".join([root, new] + rest)

    def turned(self, text, roots):
        """Text with the chains of each root, as c at a place, respelled; lets of a place alone fall away."""
        roots = {name: (root, place, 0) for name, (root, place) in roots.items()}
        pattern = re.compile(rf"(?<![^\s(){{}};,])({'|'.join(re.escape(r) for r in roots)})((?:\.{NAME})+)") if roots else None
        lets = re.compile(rf"let ({NAME})(?: : [^=]*?)? = ({'|'.join(re.escape(r) for r in roots)})((?:\.before)*) in[ ]*\n?[ ]*") if roots else None
        while roots:
            m = lets.search(text)
            if not m:
                break
            name, root, ups = m[1], m[2], m[3].count("before")
            chain = list(self.up(roots[root][1]))
            roots[name] = (roots[root][0], chain[min(ups, len(chain) - 1)], roots[root][2] + ups)
            text = text[: m.start()] + text[m.end():]
            pattern = re.compile(rf"(?<![^\s(){{}};,])({'|'.join(re.escape(r) for r in roots)})((?:\.{NAME})+)")
            lets = re.compile(rf"let ({NAME})(?: : [^=]*?)? = ({'|'.join(re.escape(r) for r in roots)})((?:\.before)*) in[ ]*\n?[ ]*")

        def one(m):
            root, place, _ = roots[m[1]]
            return self.chain(root, place, m[2][1:].split("."), roots[root][1])

        if pattern:
            text = pattern.sub(one, text)
        # the names of places that fell away, where one is handed over whole
        for name, (root, _, ups) in roots.items():
            if name != root:
                text = re.sub(rf"(?<![^\s(){{}};,]){re.escape(name)}(?![^\s(){{}};,])", root + ".before" * ups, text)
        # a step under a name of its own: its clauses and its arguments have names today
        steps = {it["step"][1]: it for it in self.places.values() if it["step"][1]}
        for alias, step in re.findall(rf"let (\w+)(?: : [^=]*?)? = \w+\.({NAME}) in", text):
            if step not in steps:
                continue
            parameters = self.entry["params"].get(steps[step]["callee"] or "", [])
            names = (steps[step]["clause"] or {"fields": []})["fields"]
            text = re.sub(rf"(?<![\w.]){alias}\.new((?:\.1)*)\.0", lambda m: f"{alias}.new.{parameters[len(m[1]) // 2]}" if len(m[1]) // 2 < len(parameters) else m[0], text)
            text = re.sub(rf"(?<![\w.]){alias}\.ensures\.(\d+)", lambda m: f"{alias}.ensures.{names[int(m[1])]}" if int(m[1]) < len(names) else m[0], text)
        # that what was lent are bytes: of a slice that is written later only the search finds it
        text = re.sub(r"\(λ (\w+)\. \(\w+\.type_inv\.\w+ \1\)\.fits\)", "(search rules)", text)
        # a field or a parameter of the source keeps its underscores
        text = re.sub(r"\.([a-z]\w*(?:-\w+)+)(?![\w-])", lambda m: "." + m[1].replace("-", "_") if m[1].replace("-", "_") in IDENTIFIERS else m[0], text)
        # a parameter that has its name today, by way of `let a = c.args in`
        for alias in re.findall(r"let (\w+)(?: : [^=]*?)? = \w+\.args in", text):
            for old, new in self.entry["args"]:
                if old.startswith(".args ."):
                    text = re.sub(rf"(?<![\w.]){alias}\.{re.escape(old[7:])}(?![\w-])", f"{alias}.{new[7:]}", text)
        # a test of !x or !f(..) says now what it is; one of !x.f still says what its negation is
        def test(m):
            name = re.sub(r"-\d+$", "", m[2])
            return m[0] if re.search(rf"!{re.escape(name)}\.\w+(?!\w|\()", self.source) else m[1]

        return re.sub(r"not-(?:true|false) (?:_|[^\s()]+|\([^()]*\)) (\w+\.(?:[^\s(),.]+\.)*if-not-([^\s(),.]+)\.(?:true|false))(?![^\s(),.])", test, text)

    def named(self, text, old):
        """An answer that is a tuple, where today's goal has a name for each clause."""
        clauses = self.entry["asked"].get(old)
        if not clauses:
            return text
        at = re.search(r"\(((?:[^()]|\((?:[^()]|\((?:[^()]|\((?:[^()]|\((?:[^()]|\([^()]*\))*\))*\))*\))*\))*)\)\s*$", text)
        if not at or text[: at.start()].strip() and not re.search(r"(?: in|=)\s*$", text[: at.start()]):
            self.say(f"{old} asks for {' '.join(clauses)}")
            return text
        parts, part, depth = [], "", 0
        for ch in at[1]:
            depth += (ch in "([{") - (ch in ")]}")
            if ch == "," and depth == 0:
                parts.append(part)
                part = ""
            else:
                part += ch
        if part.strip():
            parts.append(part)
        if len(parts) != len(clauses):
            self.say(f"{old} asks for {' '.join(clauses)}, and has {len(parts)}")
            return text
        fields = "; ".join(f"{name} = {' '.join(value.split())}" for name, value in zip(clauses, parts))
        return text[: at.start()] + "record { " + fields + " }"

    def place_of(self, word):
        """The old place that a word after `tie.` names."""
        return self.by_plain.get(plain(word))


class Copies:
    """The helpers of a file. One that takes a place's record gets a copy at each goal's place that calls it."""

    def __init__(self, function, helpers, measures):
        self.f, self.helpers, self.measures, self.at = function, helpers, measures, {}
        self.roots = {}
        for it in helpers:
            text = "\n".join(it.lines)
            roots = {}
            for group, word in re.findall(rf"\(({NAME}(?: {NAME})*) : tie\.({NAME})(?: [^()]*)?\)", text):
                place = function.place_of(word)
                if place:
                    roots.update({name: place for name in group.split()})
                else:
                    function.say(f"no place {word} in {it.name}")
            bare = re.search(rf": tie\.({NAME})(?: [^→]*?)? →", it.signature)
            if bare and it.body and function.place_of(bare[1]):
                parameters = "\n".join(it.body).split(" =", 1)[0].split()[1:]
                if parameters:
                    roots[parameters[0]] = function.place_of(bare[1])
            self.roots[it.name] = roots
        self.placed = {name for name, roots in self.roots.items() if roots and name}

    def called(self, text, c, place):
        """Calls of helpers that take a place's record, as calls of the copy at this place."""
        if not c or not self.placed:
            return text

        def one(m):
            places = self.at.setdefault(m[1], [])
            if place not in places:
                places.append(place)
                # what it calls is called there too
                self.text_of(m[1], place)
            k = places.index(place)
            return f"{m[1]}_{k + 1} {c}" if k else f"{m[1]} {c}"

        names = "|".join(re.escape(name) for name in self.placed)
        return re.sub(rf"(?<![^\s(){{}};,])({names}) {re.escape(c)}(?:\.before)*(?![^\s(){{}};,.])", one, text)

    def text_of(self, name, place):
        it = next(it for it in self.helpers if it.name == name)
        roots = self.roots[name]
        k = self.at[name].index(place)
        text = self.f.turned("\n".join(it.lines), {c: (c, at) for c, at in roots.items()})
        text = re.sub(rf"(?m)^{re.escape(name)} ", "\0 ", text)
        for c in roots:
            text = self.called(text, c, place)
        text = text.replace("\0", name)
        invs = "|".join(re.escape(x) for x in self.measures) or "\\b\\B"
        text = re.sub(rf"tie\.({NAME})((?: (?:{invs}))*)(?=[\s)→]|$)", lambda m: "goal." + self.f.places[place]["new"], text)
        if k:
            text = re.sub(rf"(?m)^((?:abbrev |pub |unfoldable )*){re.escape(name)}(?= )", rf"\g<1>{name}_{k + 1}", text)
        return text

    def texts(self):
        out = []
        for it in self.helpers:
            if it.name in self.placed:
                for k, place in enumerate(self.at.get(it.name, [])):
                    out.append((it, self.text_of(it.name, place)))
                if it.name not in self.at:
                    self.f.say(f"nothing calls {it.name}")
            else:
                out.append((it, "\n".join(it.lines)))
        return out


def lambda_of(word):
    m = re.match(r"^\(λ (\w+)( κs)?\.\s*(.*)\)$", word, re.S)
    return (m[1], " ".join(m[3].split())) if m else None


def write(path, text):
    path.write_text(re.sub(r"\n{3,}", "\n\n", text).rstrip() + "\n")


def tokens(text):
    text = re.sub(r"--.*", "", text)
    return set(re.findall(NAME, text)) | set(re.findall(r"[^\s(){}.;,@\"«»◌]+", text))


OPERATOR = re.compile(r"◌")


def used(name, body, words):
    """Whether a name that a use line brings stands in the text."""
    name = name.split(" as ")[-1].strip()
    if "◌" in name:
        parts = [p for p in name.split("◌") if p]
        return all(any(p == w or p in w for w in words) for p in parts)
    return name in words


def uses_for(uses, text):
    words = tokens(text)
    out = []
    if "rules" in words and not any("rules" in used for used in uses):
        uses = uses + ["use borrow.Author.Rules.{rules}"]
    for line in uses:
        m = USE.match(line.strip())
        if not m:
            out.append(line)
            continue
        path, group, alias = m[1], m[2], m[3]
        if path.endswith((".Statement", ".Tie")):
            continue
        if group:
            names = [n.strip() for n in group.split(",")]
            kept = [n for n in names if used(n, text, words)]
            if kept:
                out.append(f"use {path}.{{{', '.join(kept)}}}")
        elif alias and alias in words or not alias and path.split(".")[-1] in words:
            out.append(line)
    return out


def substituted(text, names):
    if not names:
        return text
    pattern = re.compile(rf"(?<![^\s(){{}};,])({'|'.join(re.escape(n) for n in sorted(names, key=len, reverse=True))})(?![^{STOP}])")
    return pattern.sub(lambda m: names[m[1]], text)


def turn(crate, folder, names, only):
    lost = {}
    root = folder / "proofs"
    for path in sorted(root.rglob("Proof.antt")):
        where = ".".join(path.parent.relative_to(root).parts)
        if only and where not in only:
            continue
        key = f"Rattle-{crate}-proofs.{where}.Lts"
        text = path.read_text()
        if "tie.spec" not in text or key not in names:
            print(f"{crate}::{where}: by hand ({'no tie.spec' if key in names else 'no names'})")
            continue
        entry = names[key]
        f = Function(crate, path.parent, entry)
        head, uses, its = items(text)
        spec = next((it for it in its if "tie.spec" in "\n".join(it.lines)), None)
        if spec is None:
            print(f"{crate}::{where}: by hand (no spec)")
            continue
        whole = "\n".join(spec.lines)
        arguments = parted(whole[whole.index("tie.spec") + len("tie.spec"):])
        loops = entry["loops"]
        needs = entry["needs"]
        asked = entry["asked_at"]
        measures = [it for it in its if "tie.decreases" in it.signature or "tie.invariant" in it.signature]
        mentioned = [a for a in arguments if any(it.name == a for it in measures)]
        rest = [a for a in arguments if a not in mentioned]
        if len(rest) != len(needs):
            f.say(f"{len(rest)} answers for {len(needs)} goals: {' '.join(n[0] for n in needs)}")
        # each goal's answer: a named item by its type, else by its place
        invariants, answers, helpers = [], [], []
        goal_of = {}
        by_type = {}
        for it in its:
            m = re.search(rf": tie\.Need-({NAME})", it.signature)
            if m:
                fit = [i for i, n in enumerate(needs) if plain(n[0]) == plain(m[1])]
                if not fit:
                    # today's old names have no kind in front: overflow-add-x is add-x
                    fit = [i for i, n in enumerate(needs) if plain(m[1]).endswith(plain(n[0]))]
                if it.name in rest and len(rest) == len(needs):
                    at = rest.index(it.name)
                    if fit and at not in fit:
                        f.say(f"{it.name} is of {m[1]}, and stands at {needs[at][0]}")
                    by_type[it.name] = at
                elif len(fit) == 1:
                    by_type[it.name] = fit[0]
                else:
                    f.say(f"no goal for {it.name} : {m[1]}")
        left_out, typed = {}, []
        for it in its:
            if it is spec:
                continue
            m = re.search(rf": tie\.(invariant|decreases)-({NAME})", it.signature)
            if m:
                fit = [i for i, lo in enumerate(loops) if plain(lo[0][0]) == plain(m[2])]
                if not fit:
                    f.say(f"no loop {m[2]}")
                    continue
                (old, new), variables = loops[fit[0]]
                changed = entry["changed"][fit[0]]
                body = "\n".join(it.body)
                lhs, rhs = body.split(" =", 1)
                parameters = lhs.split()[1:]
                table, k = {}, 0
                want = len(variables) + sum(changed)
                if len(parameters) != want:
                    f.say(f"{it.name} has {len(parameters)} parameters, today's loop {want}: {variables} {changed}")
                for v, c in zip(variables, changed):
                    if k < len(parameters):
                        table[parameters[k]] = f"l.initial.{v}" if c else f"l.{v}"
                    k += 1
                for v, c in zip(variables, changed):
                    if c:
                        if k < len(parameters):
                            table[parameters[k]] = f"l.{v}"
                        k += 1
                table.pop("_", None)
                kind = f"{m[1]}-{new}"
                invariants.append((it.comment, f"abbrev pub {kind} : goal.{kind}", it.unfolding, f"{kind} l =" + substituted(rhs, table)))
                continue
            if it.name in by_type:
                typed.append(it)
                continue
            helpers.append(it)
        copies = Copies(f, helpers, [x.name for x in measures])
        for it in typed:
            if True:
                i = by_type[it.name]
                old, new = needs[i]
                place = asked[i][0]
                lhs, rhs = "\n".join(it.body).split(" =", 1)
                parameters = lhs.split()[1:]
                c = parameters[0] if parameters else None
                parameters = [x for x in parameters if x != "κs"]
                rhs = copies.called(f.named(f.turned(rhs, {c: (c, place)} if c else {}), old), c, place)
                answers.append((i, it.comment, new, it.unfolding, " ".join([new] + parameters) + " =" + rhs))
                continue
        named = set(by_type.values())
        for i, a in enumerate(rest):
            if i >= len(needs) or a in by_type:
                continue
            old, new = needs[i]
            lam = lambda_of(a)
            if lam is None:
                f.say(f"argument {a[:60]} for {old}")
                continue
            c, body = lam
            body = copies.called(f.named(f.turned(body, {c: (c, asked[i][0])}), old), c, asked[i][0])
            line = f"{new} {c} = {body}"
            if body in SHORT:
                left_out[new] = line
            else:
                answers.append((i, [], new, [], line))
        del named
        answers.sort(key=lambda it: it[0])
        helpers = copies.texts()
        # what invariants need stands with them
        texts = "\n".join(body for _, _, _, body in invariants)
        own = {it.name: (it, t) for it, t in helpers if it.name}
        needed, todo = [], [n for n in own if n in tokens(texts)]
        while todo:
            n = todo.pop()
            if n not in needed:
                needed.append(n)
                todo += [k for k in own if k in tokens(own[n][1]) and k != n]
        inv_helpers = [(it, t) for it, t in helpers if it.name in needed]
        ans_helpers = [(it, t) for it, t in helpers if it.name not in needed]
        module = f"Rattle.{crate}.proofs.{where}"
        if invariants:
            parts = []
            for it, t in inv_helpers:
                t = t if re.match(r"^(abbrev )?pub ", t) or "\nmodule" in t else re.sub(r"^(abbrev |unfoldable )?", lambda m: (m[1] or "") + "pub ", t, count=1)
                parts.append("\n".join(it.comment + [t]))
            for comment, signature, unfolding, body in invariants:
                parts.append("\n".join(comment + [signature] + unfolding + [body]))
            text_of = "\n\n".join(parts)
            out = head + uses_for(uses, text_of) + [f"use {module}.Given as goal", "", text_of]
            write(path.parent / "Invariants.antt", "\n".join(out))
        if answers or left_out or ans_helpers:
            parts = ["\n".join(it.comment + [t]) for it, t in ans_helpers]
            for _, comment, new, unfolding, body in answers:
                parts.append("\n".join(comment + [f"pub {new} : goal.{new}"] + unfolding + [body]))
            text_of = "\n\n".join(parts)
            if answers:
                lines = uses_for(uses, text_of)
                words = tokens(text_of)
                if inv_helpers and any(it.name in words for it, _ in inv_helpers):
                    lines.append(f"use {module}.Invariants.{{{', '.join(it.name for it, _ in inv_helpers if it.name in words)}}}")
                out = ([] if invariants else head) + lines + [f"use {module}.Goals as goal", "", text_of]
                write(path.parent / "Answers.antt", "\n".join(out))
        lost[where] = {"answers": left_out, "uses": [u for u in uses if not re.search(r"\.(Statement|Tie)( |$|\.)", u)]}
        path.unlink()
        if not any(path.parent.iterdir()):
            path.parent.rmdir()
        for s in f.said:
            print(f"{crate}::{where}: {s}")
    return lost


def restore(crate, folder, output):
    kept = json.loads((folder / "out" / "left_out.json").read_text())
    text = Path(output).read_text()
    count = 0
    asked = {}
    for m in re.finditer(r"^fn (\S+?)::(\S+): .*", text, re.M):
        names = re.findall(r"`([^`]+)`", m[0])
        asked.setdefault(m[2].replace("::", "."), set()).update(names)
    for where, goals in asked.items():
        here = kept.get(where)
        if not here:
            continue
        path = folder / "proofs" / Path(*where.split(".")) / "Answers.antt"
        module = f"Rattle.{crate}.proofs.{where}"
        for goal in sorted(goals & here["answers"].keys()):
            line = here["answers"].pop(goal)
            if not path.exists():
                path.parent.mkdir(parents=True, exist_ok=True)
                write(path, f"use {module}.Goals as goal\n")
            old = path.read_text()
            add = f"\npub {goal} : goal.{goal}\n{line}\n"
            for word in re.findall(r"\b(arith|rules|refl)\b", line):
                home = {"arith": "native.Mathlib.Omega", "rules": "borrow.Author.Rules", "refl": "mathlib.Core.Path"}[word]
                if not re.search(rf"^use .*\b{word}\b", old, re.M):
                    old = old.replace("use ", f"use {home}.{{{word}}}\nuse ", 1)
            write(path, old.rstrip() + "\n" + add)
            count += 1
    (folder / "out" / "left_out.json").write_text(json.dumps(kept, ensure_ascii=False))
    print(f"{count} answers written back")


def main(words):
    folder = Path(words[0]).resolve()
    crate = folder.name
    if words[1] == "--restore":
        restore(crate, folder, words[2])
        return 0
    names = json.loads(Path(words[1]).read_text())
    lost = turn(crate, folder, names, set(words[2:]))
    (folder / "out").mkdir(exist_ok=True)
    at = folder / "out" / "left_out.json"
    before = json.loads(at.read_text()) if at.exists() else {}
    at.write_text(json.dumps({**before, **lost}, ensure_ascii=False))
    return 0


sys.exit(main(sys.argv[1:]))

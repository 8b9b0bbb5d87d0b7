#!/usr/bin/env python3
"""Brings the repository's own definitions and lemmas to snake case, after port.py: run once, at the top.

usage: tools/snake_names.py [--list]    --list prints the new names and those that fall together, and writes nothing

A name is the repository's own where a file of specs/ or proofs/ declares it, or binds it. Names of the library, of modules and types, and of what Rattle
generates stay as they are. In src/ only ghost items and clauses are touched, since Rust's names have this spelling already.
"""
import re
import sys
from collections import defaultdict
from pathlib import Path

ROOT = Path.cwd()
CRATES = {p.name for p in (ROOT / "crates").iterdir() if (p / "src").is_dir()}
TOKEN = re.compile(r"[^\s(){}\[\].,;:«»\"|↦]+")
USE = re.compile(r"^(\s*(?:pub )?(?:ghost )?use )([^\s{;]+?)(?:\.\{(.*?)\})?( as \S+?)?(;?)$")
GENERATED = re.compile(r"\.(Tie|Statement|Reads|Kinds|Goals|Given|Lts\S*|Cfg\S*|declared|contracts|\+[^.]*)(\.|$)")
DECLARED = re.compile(r"^\s*((?:abbrev |unfoldable |pub |axiom )*)([^\s(){}\[\].,;:]+) :(?: |$)")
# Names that would fall together with a definition's.
LEMMAS = set("accept-on all-below by-words bytes-of core-fits cross-fits declared-at drawn-none entry-fits entry-number first-from first-list frame-fits graph-fits hard-both hard-path held-as is-cycle is-header is-malformed kind-byte last-below level-at list-and-count-full lock-at mark-fits marks-in not-crosslock refusal-by some-lock part-of other-classes not-in-progress word-of origin-fits entry-at progress-at is-kept opened-desk opened-seen opened-sheet bit-and bit-or quick-state same-numbers quick-cyclic quick-settled soft-both soft-path".split())
OTHERS = {"oneMore": "with_one_more", "safeAt": "safe_word_at", "no-class": "no_such_class"}
# The same, of names that are in snake case already: in these files alone.
HERE = {"rules/proofs/Decided.antt": "goes_on", "rules/proofs/CrossExamples.antt": "list_full", "rules/proofs/Quick.antt": "some_below"}
KEYWORDS = set("data record deriving module where use mod pub package open as unfoldable abbrev axiom unfold unfolding ruleset mutual infix infixl infixr elim let in do".split())


def is_own(path):
    parts = path.split(".")
    return len(parts) > 2 and parts[0] == "Rattle" and parts[1] in CRATES and parts[2] in ("specs", "proofs") and not GENERATED.search(path)


def snake(name):
    """The new name. A lemma that would have its function's name gets _lem."""
    if name in LEMMAS:
        return snake_plain(name) + "_lem"
    return OTHERS.get(name) or snake_plain(name)


def snake_plain(name):
    parts = []
    for part in name.split("-"):
        part = re.sub(r"getD", "get_or", part)
        if part[:1].islower():
            part = re.sub(r"(?<=[a-z0-9'])([A-Z])(?=[a-z0-9]|$|')", lambda m: "_" + m[1].lower(), part)
            part = re.sub(r"(?<=[a-z0-9'])([A-Z]+)", lambda m: "_" + m[1].lower(), part)
        parts.append(part)
    return "_".join(parts)


def wants(name):
    return name not in KEYWORDS and re.match(r"[a-zμ]", name) and snake(name) != name


def files():
    for p in sorted((ROOT / "crates").rglob("*.antt")):
        if "out" not in p.relative_to(ROOT / "crates").parts:
            yield p


def rust_files():
    for p in sorted((ROOT / "crates").rglob("*.rt")):
        if "out" not in p.relative_to(ROOT / "crates").parts:
            yield p


def code(line):
    """A line without its comment, and the comment."""
    i = line.find("--")
    while i > 0 and not line[i - 1].isspace():
        i = line.find("--", i + 2)
    return (line, "") if i < 0 else (line[:i], line[i:])


def imports(text):
    """The names that a file has of the library or of what Rattle generates, the aliases of such modules, and its own imports."""
    foreign, aliases, own = set(), set(), {}
    for line in text.split("\n"):
        m = USE.match(line)
        if not m:
            continue
        path, names, alias = m[2], m[3], m[4]
        for item in (names or "").split(","):
            words = item.split()
            if not words:
                continue
            if is_own(path):
                own[words[-1]] = path
            else:
                foreign.add(words[-1])
        if alias and not names:
            (aliases.add(alias.split()[1]) if not is_own(path) else None)
        elif not names and not is_own(path):
            foreign.add(path.split(".")[-1])
    return foreign, aliases, own


def declared():
    names = defaultdict(set)
    for p in files():
        for line in p.read_text().split("\n"):
            m = DECLARED.match(code(line)[0])
            if m and m[2] not in KEYWORDS:
                names[m[2]].add(p)
    return names


def turn(text, everywhere, declared_names):
    foreign, aliases, own = imports(text)

    def token(m, line):
        name = m[0]
        before = line[:m.start()]
        if not wants(name):
            return name
        if before.endswith("."):
            head = re.search(r"([^\s(){}\[\].,;:]+)\.$", before)
            if head and (head[1] in aliases):
                return name
            return snake(name) if name in declared_names else name
        if name in foreign:
            return name
        return snake(name)

    out = []
    for line in text.split("\n"):
        m = USE.match(line)
        if m:
            path, names = m[2], m[3]
            if names is not None and is_own(path):
                items = []
                for item in names.split(","):
                    items.append(" ".join(snake(w) if wants(w) and w != "as" else w for w in item.split()))
                line = f"{m[1]}{path}.{{{', '.join(items)}}}{m[4] or ''}{m[5]}"
            elif names is not None:
                items = []
                for item in names.split(","):
                    words = item.split()
                    if len(words) == 3 and wants(words[2]):
                        words[2] = snake(words[2])
                        foreign.discard(item.split()[2])
                    items.append(" ".join(words))
                line = f"{m[1]}{path}.{{{', '.join(items)}}}{m[4] or ''}{m[5]}"
            elif m[4] and wants(m[4].split()[1]):
                line = f"{m[1]}{path} as {snake(m[4].split()[1])}{m[5]}"
            out.append(line)
            continue
        body, comment = code(line) if everywhere else (line, "")
        if not everywhere:
            i = line.find("//")
            body, comment = (line, "") if i < 0 else (line[:i], line[i:])
            body = TOKEN.sub(lambda t: snake(t[0]) if t[0] in declared_names and wants(t[0]) and t[0] not in foreign else t[0], body)
            out.append(body + comment)
            continue
        body = TOKEN.sub(lambda t: token(t, body) if not (t[0] in aliases) else snake(t[0]) if wants(t[0]) else t[0], body)
        comment = TOKEN.sub(lambda t: re.sub(r"^(`?)(.*?)(`?)$", lambda q: q[1] + (snake(q[2]) if q[2] in declared_names and wants(q[2]) and (q[1] or not re.fullmatch(r"[a-z]+(-[a-z]+)*", q[2])) else q[2]) + q[3], t[0]), comment)
        out.append(body + comment)
    return "\n".join(out)


def mapping(names):
    return {n: snake(n) for n in names if wants(n)}


def clashes(names):
    by = defaultdict(set)
    for n in names:
        by[snake(n) if wants(n) else n].add(n)
    for new, olds in sorted(by.items()):
        if len(olds) > 1:
            for a in sorted(olds):
                yield new, a, sorted(str(p.relative_to(ROOT / "crates")) for p in names[a])


def together(names):
    """In one file, several old names with one new name, or a new name that the file has of the library."""
    for p in files():
        foreign, aliases, own = imports(p.read_text())
        by = defaultdict(set)
        for line in p.read_text().split("\n"):
            if USE.match(line) and not is_own(USE.match(line)[2]):
                continue
            for m in TOKEN.finditer(code(line)[0]):
                dotted = line[:m.start()].endswith(".")
                if dotted and m[0] not in names:
                    continue
                by[snake(m[0]) if wants(m[0]) and (dotted or m[0] not in foreign) else m[0]].add(m[0])
        for new, olds in sorted(by.items()):
            if len(olds) > 1 or (new in foreign and olds != {new}):
                yield p.relative_to(ROOT / "crates"), new, sorted(olds)


def main():
    names = declared()
    if "--together" in sys.argv:
        for found in together(names):
            print(*found)
        return
    if "--list" in sys.argv:
        for old, new in sorted(mapping(names).items()):
            print(old, new)
        for clash in clashes(names):
            print("clash:", *clash)
        return
    if "--map" in sys.argv:
        for old, new in sorted(mapping(names).items()):
            print(f"{old}\t{new}")
        return
    for p in files():
        text = p.read_text()
        here = HERE.get(str(p.relative_to(ROOT / "crates")))
        if here:
            text = re.sub(rf"(?<![\w.'-]){here}(?![\w'-])", here + "_lem", text)
        p.write_text(turn(text, True, names))
    for p in rust_files():
        p.write_text(turn(p.read_text(), False, names))


if __name__ == "__main__":
    main()

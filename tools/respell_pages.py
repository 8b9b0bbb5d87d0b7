#!/usr/bin/env python3
"""Brings the names in the backticks of README.md and docs/*.md to today's spelling; run once, at the top, and then tests/links --fix.

usage: tools/respell_pages.py MAP [--list]    MAP has a line OLD<TAB>NEW for each name; --list only prints what would change

A name with its line, as `name` (crates/CRATE/specs/M.antt:1), becomes what that file declares: itself, the map's, or the same with _lem. One that the
file declares under no such name is printed and left, as tests/links will say too. Another name in backticks becomes the map's where nothing declares the
old one. The crate log is log_text. Blocks of code, and the pages of the port, stay as they are.
"""
import re
import sys
from pathlib import Path

ROOT = Path.cwd()
NAMED = re.compile(r"`([^`\s]+)` \(([^()\s:]+):(\d+)\)")
SPAN = re.compile(r"^```.*?^```|`[^`\n]+`(?: \([^()\s:]+:\d+\))?", re.M | re.S)
TOKEN = re.compile(r"[^\s(){}\[\].,;:«»\"|↦`/]+")


def declares(name, text):
    return re.search(r"^\s*(?:(?:unfoldable|abbrev|pub|data|record|const|fn|extern|\"C\") )*" + re.escape(name) + r"(?=[\s(:{<]|$)", text, re.M)


def main():
    new = dict(line.split("\t") for line in Path(sys.argv[1]).read_text(encoding="utf-8").splitlines() if "\t" in line)
    sources = {str(file.relative_to(ROOT)): file.read_text(encoding="utf-8") for file in sorted((ROOT / "crates").rglob("*"))
               if file.suffix in (".antt", ".rt") and "out" not in file.parts}
    declared = {name for text in sources.values() for name in re.findall(r"^\s*(?:(?:unfoldable|abbrev|pub|data|record|const|fn|extern|\"C\") )*([^\s(:{<]+)(?=[\s(:{<]|$)", text, re.M)}
    changed = left = 0

    def moved(text):
        return re.sub(r"(?<![\w/])log/(?=\w)", "log_text/", text.replace("crates/log/", "crates/log_text/"))

    def at_line(name, path, line):
        nonlocal left
        path = moved(path)
        text = sources.get(path, "")
        first = new.get(name, name).replace("′", "'")
        for one in (first, f"{first}_lem", first.replace("-", "_"), name):
            if declares(one, text):
                return f"`{one}` ({path}:{line})"
        left += 1
        print(f"left: `{name}` ({path}:{line})")
        return f"`{name}` ({path}:{line})"

    def span(match):
        whole = match[0]
        if whole.startswith("```"):
            return whole
        if named := NAMED.fullmatch(whole):
            return at_line(*named.groups())
        if whole.startswith("`") and re.search(r"` \(", whole):
            return whole
        return TOKEN.sub(lambda token: new[token[0]] if token[0] in new and token[0] not in declared else token[0], moved(whole))

    for page in [ROOT / "README.md", *sorted((ROOT / "docs").glob("*.md"))]:
        if page.name.startswith("PORT"):
            continue
        old = page.read_text(encoding="utf-8")
        text = re.sub(r"crates/log/", "crates/log_text/", SPAN.sub(span, old))
        for one, other in zip(old.split("\n"), text.split("\n")):
            if one != other:
                changed += 1
                if "--list" in sys.argv:
                    print(f"{page.name}: - {one}\n{page.name}: + {other}")
        if "--list" not in sys.argv:
            page.write_text(text, encoding="utf-8")
    print(f"{changed} lines changed, {left} names left")


main()

#!/usr/bin/env python3
"""Respelled the repository's own definitions and lemmas, once, right after port.py: words in snake case, types and modules as they are. Kept as a record: it does not run again.

Only names that the files of specs/ and proofs/ declare are touched, in .antt and .rt files outside comments and texts, in comments and pages between
backticks, and in must-fail edits. At the top: tools/spelling.py, or tools/spelling.py --list to see the names alone.
"""
import pathlib
import re
import sys

ROOT = pathlib.Path(sys.argv[-1]) if len(sys.argv) > 1 and not sys.argv[-1].startswith("--") else pathlib.Path(".")
DELIMITERS = r"\s(){}.,;«»⌜⌝\"`'"
TOKEN = re.compile(rf"[^{DELIMITERS}]+'*")

# Names that would fall together with a definition's, and are spelled with underscores already: what they are called instead.
APART = {
    "after_store": "after_store_lem",
    "first_body": "first_body_lem",
    "first_run": "first_run_here",
    "second_run": "second_run_here",
    "position_at": "position_at_lem",
}


def snake(name):
    """camelCase to snake_case, and a dash to an underscore."""
    name = re.sub(r"(?<=[a-z0-9])([A-Z])(?=[a-z0-9]|$)", lambda m: "_" + m.group(1).lower(), name)
    return name.replace("-", "_")


def antt_files():
    for kind in ("specs", "proofs"):
        yield from sorted(ROOT.glob(f"crates/*/{kind}/**/*.antt"))


HEAD = re.compile(r"^\s*(?:(?:pub|abbrev|unfoldable|opaque|ruleset)\s+)*((?:[^\s(){}.,;:=]+\s+)*[^\s(){}.,;:=]+)\s+:(?:\s|$)")
WORDS = {"pub", "abbrev", "unfoldable", "record", "data", "module", "use", "where", "let", "in", "syntax", "ruleset", "opaque", "field", "mod", "as", "open", "elim", "rw", "simp"}


def declared():
    """Every name that a file of specs/ or proofs/ declares, but for the parts of a proof that walks code."""
    names = {}
    for path in antt_files():
        for line in path.read_text().splitlines():
            text = line.split("--")[0].rstrip()
            m = HEAD.match(text)
            if not m:
                continue
            if re.search(r":\s+(?:tie|goal)\.(?:Need-|invariant|decreases)", text):
                continue
            for name in m.group(1).split():
                if name in WORDS or not re.match(r"^[a-z◌]", name):
                    continue
                names.setdefault(name, set()).add(str(path))
    return names


def mapping():
    """Old name to new. A lemma that would have its definition's name gets _lem."""
    names = declared()
    defined = {snake(n) for n in names if re.search(r"[a-z0-9][A-Z]", n) and "-" not in n}
    table = {}
    for name in names:
        new = APART.get(name, snake(name))
        if "-" in name and new in defined:
            new += "_lem"
        if new != name:
            table[name] = new
    return table


def functions():
    """The names of the functions of src/, as the older kit's generated fields spelled them."""
    found = set()
    for path in ROOT.glob("crates/*/src/**/*.rt"):
        found |= {n.replace("_", "-") for n in re.findall(r"\bfn ([a-z0-9_]+)", path.read_text())}
    return found


def respell(text, table, keep=frozenset()):
    """A word after a dot that is in `keep` names a step of a proof that walks code, and stays."""

    def one(m):
        word = m.group(0)
        if word in keep and m.start() > 0 and text[m.start() - 1] == ".":
            return word
        return table.get(word, word)

    return TOKEN.sub(one, text)


def in_ticks(text, table):
    return re.sub(r"`[^`\n]*`", lambda m: respell(m.group(0), table), text)


def code(text, table, comment, keep=frozenset()):
    """Respells outside comments and texts; in a comment only between backticks."""
    out = []
    for line in text.split("\n"):
        at = line.find(comment)
        body, rest = (line, "") if at < 0 else (line[:at], line[at:])
        parts = re.split(r'("(?:[^"\\]|\\.)*")', body)
        body = "".join(p if p.startswith('"') else respell(p, table, keep) for p in parts)
        out.append(body + in_ticks(rest, table))
    return "\n".join(out)


def edits(text, table):
    out = []
    for line in text.split("\n"):
        out.append(respell(line, table) if re.match(r"^(old|new): ", line) else in_ticks(line, table))
    return "\n".join(out)


def main():
    if (ROOT / "docs" / "PORT.md").exists():
        sys.exit("spelling: the names are respelled already (docs/PORT.md)")
    table = mapping()
    if "--list" in sys.argv:
        for old, new in sorted(table.items()):
            print(old, new)
        return
    keep = functions()
    for path in antt_files():
        old = path.read_text()
        steps = keep if path.name == "Proof.antt" else frozenset()
        new = code(old, table, "--", steps)
        if new != old:
            path.write_text(new)
    for path in sorted(ROOT.glob("crates/*/src/**/*.rt")):
        old = path.read_text()
        in_code = {k: v for k, v in table.items() if k not in APART}
        new = code(old, in_code, "//")
        if new != old:
            path.write_text(new)
    for path in sorted(ROOT.glob("crates/*/must-fail/*.edit")):
        old = path.read_text()
        new = edits(old, table)
        if new != old:
            path.write_text(new)
    for path in [ROOT / "README.md", *sorted((ROOT / "docs").glob("*.md"))]:
        if path.name == "PORT.md":
            continue
        old = path.read_text()
        new = in_ticks(old, table)
        if new != old:
            path.write_text(new)


main()

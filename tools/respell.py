#!/usr/bin/env python3
"""Spells the repository's own definitions and lemmas as Rattle's words are spelled: words and fields in snake case, modules in camel case.

Run once, at the top, after the kit's port.py, on a tree whose definitions are in the older spelling; on any other it stops, since answers
are named after the kit's goals, and these have dashes. A name's new spelling follows from the old one alone; where two names would fall
together the one in proofs/ gets `_lem` behind it, and KEPT_APART has the rest. What Rust declares keeps its spelling."""
import collections
import os
import re
import subprocess
import sys

IDENT = r"[^\s(){}\[\];,.\"«»@`]+"
DECLARED = re.compile(
    r"^(\s*)((?:abbrev |unfoldable |pub |let )*)(" + IDENT + r")((?:\s+\{[^}]*\}|\s+\([^)]*\))*)\s*:(?!=)"
)
WORDS = {"where", "use", "pub", "λ", "let", "in", "elim", "→", "×", "|", "data", "record", "module", "go"}
# New names that something else in the repository has already, or that are words of antt or of the proof tactics.
KEPT_APART = {"inOrder": "is_in_order", "inPart": "is_in_part"}
TEXT = ("README.md", "docs/STATEMENTS.md", "docs/DECISIONS.md", "docs/CHANGING.md", "docs/PAPERS.md", ".ci/edits.txt")


def files(suffix, under="crates"):
    out = subprocess.run(["git", "ls-files", under], check=True, capture_output=True, text=True).stdout
    return [f for f in out.splitlines() if f.endswith(suffix) and os.path.exists(f)]


def respelled(name):
    """snake case; a dash stays beside what is no letter, digit or underscore"""
    name = re.sub(r"(?<=[a-z0-9])([A-Z])(?=[a-z])", lambda m: "_" + m.group(1).lower(), name)
    name = re.sub(r"(?<=[a-z0-9_])([A-Z])(?![A-Za-z])", lambda m: "_" + m.group(1).lower(), name)
    return re.sub(r"(?<=[\w'])-(?=\w)", "_", name)


def declared():
    found = collections.defaultdict(set)
    for f in files(".antt"):
        if f.endswith("/Proof.antt"):
            continue
        for line in open(f):
            if line.startswith("use ") or line.lstrip().startswith("--"):
                continue
            m = DECLARED.match(line)
            if m and m.group(3) not in WORDS:
                found[m.group(3)].add(f)
    return found


def is_fact(name):
    return name[:1].isupper()


def table():
    """Names of specs/ come first; a lemma whose name one of them takes gets `_lem`."""
    found = declared()
    stated = {n for n in found if any("/specs/" in f for f in found[n])}
    names = [n for n in found if not is_fact(n)]
    taken = set()
    new = {}
    for n in sorted(names, key=lambda n: (n not in stated, "-" in n, n)):
        to = KEPT_APART.get(n, respelled(n))
        if to in taken and ("-" in n or n not in stated):
            to += "_lem"
        if to in taken:
            sys.exit(f"respell: {n} falls together with another: {to}")
        taken.add(to)
        if n != to:
            new[n] = to
    return new


def spell(text, new):
    """A name that was in snake case before is no field here, nor a name of Rust's."""

    def one(m):
        name = m.group(0)
        if name in new and not (text[m.start() - 1 : m.start()] == "." and re.fullmatch(r"[a-z0-9_']+", name)):
            return new[name]
        return name

    return re.sub(IDENT, one, text)


def without_others(text, new):
    """less the names that the file takes from a library that is none of the repository's"""
    others = set()
    for module, names in re.findall(r"^use ([^\s{]+?)\.\{([^}]*)\}", text, re.M):
        if not (module.startswith("Rattle.") and os.path.isdir("crates/" + module.split(".")[1])):
            others.update(n.strip() for n in names.split(","))
    return {n: to for n, to in new.items() if n not in others}


def in_antt(text, new):
    new = without_others(text, new)
    out = []
    for line in text.split("\n"):
        code, mark, comment = line.partition("--")
        # `--` inside a name is no comment
        if mark and code and not code[-1].isspace():
            code, mark, comment = line, "", ""
        out.append(spell(code, new) + mark + re.sub(r"`[^`]*`", lambda m: spell(m.group(0), new), comment))
    return "\n".join(out)


def in_rust(text, new):
    new = {n: to for n, to in new.items() if not re.fullmatch(r"[a-z0-9_']+", n)}
    out = []
    for line in text.split("\n"):
        code, mark, comment = line.partition("//")
        out.append(spell(code, new) + mark + re.sub(r"`[^`]*`", lambda m: spell(m.group(0), new), comment))
    return "\n".join(out)


def in_page(text, new):
    return re.sub(r"`[^`\n]*`", lambda m: spell(m.group(0), new), text)


def modules(text):
    """what only private functions promise stands in specs/Inner"""
    text = re.sub(r"(\.specs)\.inner\b", r"\1.Inner", text)
    return re.sub(r"^((?:pub )?mod )inner$", r"\1Inner", text, flags=re.M)


# what the kit's port.py says for what stands in an edit
OLDER = (
    (r" \.(?=[\w«])", "."),
    (r"\bgetD\b", "get_or"),
    (r"\bsucc\b", "suc"),
    (r"_([-+*/%^<≤≡∷]|\+\+|&&|\|\|)_", r"◌\1◌"),
    (r"\bofBits\b", "of_bits"),
    (r"\btoBits\b", "to_bits"),
    ("′", "'"),
    (r"«([a-z_]+)»", r"\1"),
    (r"(?<=[ (])\((\w+(?:\.\w+)+)\)", r"\1"),
    (r"\bthe-variants\b", "TheVariants"),
    ("·", "."),
)


def edit_line(text, new, file):
    """the text of an edit as the file now says it, or as it was where it still stands there"""
    if not file.endswith(".antt"):
        return text
    for was, to in OLDER:
        text = re.sub(was, to, text)
    return re.sub(IDENT, lambda m: new.get(m.group(0)) or (m.group(0) if is_fact(m.group(0)) else respelled(m.group(0))), text)


def edit(f, new):
    out = []
    file = ""
    for line in open(f).read().split("\n"):
        key, colon, text = line.partition(": ")
        if key == "file":
            file = text = re.sub(r"^specs/inner", "specs/Inner", text)
        elif key in ("old", "new") and colon:
            text = edit_line(text, new, file)
        out.append(key + colon + text)
    open(f, "w").write("\n".join(out))


def rewrite(f, change):
    text = open(f).read()
    to = change(text)
    if to != text:
        open(f, "w").write(to)


def main():
    if not any("/specs/inner" in f for f in files(".antt")):
        sys.exit("respell: the definitions of this tree are in today's spelling; nothing was changed")
    new = table()
    if "--table" in sys.argv:
        for n in sorted(new):
            print(n, new[n])
        return
    for f in files(".antt"):
        if "/specs/inner" in f:
            to = f.replace("/specs/inner", "/specs/Inner")
            os.makedirs(os.path.dirname(to), exist_ok=True)
            subprocess.run(["git", "mv", f, to], check=True)
    for f in files(".antt"):
        rewrite(f, lambda t: modules(in_antt(t, new)))
    for f in files(".rt"):
        rewrite(f, lambda t: modules(in_rust(t, new)))
    for f in files(".edit"):
        edit(f, new)
    for f in TEXT:
        if os.path.exists(f):
            rewrite(f, lambda t: in_page(t, new))


main()

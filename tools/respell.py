#!/usr/bin/env python3
"""Respells this repository's own ghost names: dashes become underscores, and a fact's name is written in camel case.

Run at the top of the repository. A name counts as its own where a file of specs/ or proofs/ defines it: at the head of a
definition, as a field, a constructor, or a local name. Names of goals are Rattle's and stay as they are.
With --list it prints what it would change, and changes nothing.
"""
import pathlib
import re
import sys

NAME = r"[A-Za-zℕ0-9_'+*≤≡∈\-]+"
HEAD = re.compile(rf"^\s*(?:\| )?(?:(?:abbrev|unfoldable|pub) )*({NAME}) :", re.M)
KIND = re.compile(rf"^\s*(?:pub )?(?:record|data|inductive) ({NAME})", re.M)
FROM_LIBRARY = re.compile(r"^(?:ghost )?use (?:Rattle\.std|mathlib|lib|Prim|native|borrow)\.[^{]*\{([^}]*)\}", re.M)
LOCAL = re.compile(rf"\blet ({NAME}) [:=]")
BOUND = re.compile(rf"[({{]((?:{NAME} )+):")
LAMBDA = re.compile(rf"λ ((?:{NAME} )*{NAME})\.")
ALIAS = re.compile(rf"\bas ({NAME})")
GOAL = re.compile(rf"({NAME}) : goal\.", re.M)


# A lemma that begins with a fact of the library keeps its dash; the chosen names would else fall together with another's, name an
# older word, or be missed as names that only a clause binds.
KEPT = {"All-append", "All-map", "All-weaker"}
CHOSEN = {"Nothing-waiting": "NothingIsWaiting", "getD-each": "get_or_each", "digit-of": "digit_of"}


def spelled(name):
    """The name in today's spelling: `no-change` is `no_change`, `Choice-laws` is `ChoiceLaws`."""
    if name in CHOSEN:
        return CHOSEN[name]
    if name[0].isupper():
        return "".join(part[:1].upper() + part[1:] for part in name.split("-"))
    return name.replace("-", "_")


def without_comments(text):
    return re.sub(r"--( .*)?$", "", text, flags=re.M)


def own_names(files):
    own, goals, every = set(), set(), set()
    library = set()
    for path in files:
        if path.suffix != ".antt":
            continue
        text = without_comments(path.read_text())
        goals.update(GOAL.findall(text))
        every.update(re.findall(NAME, text))
        for names in FROM_LIBRARY.findall(text):
            library.update(re.split(r"\s+as\s+|,\s*", names))
        found = HEAD.findall(text) + KIND.findall(text) + LOCAL.findall(text) + ALIAS.findall(text)
        for group in BOUND.findall(text) + LAMBDA.findall(text):
            found += group.split()
        own.update(found)
    own = {n for n in own - goals - library if "-" in n.strip("-") and re.match(r"[A-Za-z]", n)} - KEPT
    return own, goals, every


def main():
    files = sorted(p for p in pathlib.Path("crates").rglob("*") if p.suffix in (".antt", ".rt") and "out" not in p.parts)
    own, goals, every = own_names(files)
    renamed = {n: spelled(n) for n in own | CHOSEN.keys()}
    for old, new in sorted(renamed.items()):
        if new in every:
            print(f"respell: {old} falls together with {new}", file=sys.stderr)
    if "--list" in sys.argv:
        print("\n".join(f"{o} {n}" for o, n in sorted(renamed.items())))
        return
    token = re.compile(rf"(?<![A-Za-z0-9_'\-])({NAME})(?![A-Za-z0-9_'\-])")
    for path in files:
        text = path.read_text()
        new = token.sub(lambda m: renamed.get(m.group(1), m.group(1)), text)
        if new != text:
            path.write_text(new)
    # in a page only what stands as code
    for path in [pathlib.Path("README.md"), *sorted(pathlib.Path("docs").glob("*.md"))]:
        text = path.read_text()
        code = lambda m: token.sub(lambda t: renamed.get(t.group(1), t.group(1)), m.group(0))
        new = re.sub(r"```.*?```|`[^`\n]*`", code, text, flags=re.S)
        if new != text:
            path.write_text(new)


main()

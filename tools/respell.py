#!/usr/bin/env python3
"""Brings this repository's own definitions and lemmas to the spelling of today's Rattle, after port.py has run.

usage: python3 tools/respell.py [--list | --papers]      at the top of the repository

Words are in snake case, and a dash joins two names: `labelsOf` becomes `labels_of`, `sum-cong` becomes `sum_cong`, and
`set_of-has` keeps its dash, since `has` is a definition. Types, modules, functions of src/ and names of the library keep theirs.
What is declared in a file of specs/ or proofs/ is renamed wherever it stands: in these, in clauses, in must-fail edits and in
documents. A name whose new spelling is taken keeps its dashes. With --list it only prints the renamings. With --papers, afterwards, it brings to documents and edits what
port.py respelled where it is declared.
"""
import os
import re
import sys

NAME = re.compile(r"(?<![\w'·◌.-])([a-z][\w'-]*)")
FIELD = re.compile(r"\.([a-z][\w'-]*)")
DECLARED = re.compile(r"^(\s*)(?:(?:pub|abbrev|unfoldable)\s+)*([a-z][\w'-]*)\s*(?::\s|[({])")
# words of the library, whose spelling is the library's
LIBRARY = {"length", "take", "drop", "append", "set", "get_or", "replicate", "map", "add", "mul", "sub", "div", "mod", "suc", "zero",
           "le", "lt", "eq", "ne", "true", "false", "not", "none", "some", "min", "max"}
# names that port.py respelled already, since the library has the same spelling: documents and edits still have the old one
TURNED = """above-low add-at add-begin after-run after-same ahead-none alike-refl all-back all-more and-comm and-l and-r and-set
any-some at-a at-b at-last at-place at-value below-next cell-row chosen-none class-low count-cut count-none counted-none digit-low
digits-more entries-next entry-case fields-made first-byte first-fine first-word fitted-none found-front found-word free-part
from-first from-zero front-length full-size gathered-none gives-back goes-on has-all has-one has-value held-more in-left in-near
in-without in-words is-free joined-back labels-length laid-next lays-more le-below left-below left-word line-at line-first line-same
lines-cut lines-none low-of made-as made-fault moved-in moved-same mul-at ne-same near-before near-step new-meets new-walks
next-place next-way no-line no-loop no-middle no-node no-room no-short no-tf no-way none-first none-left none-made not-done not-last
not-line not-lower not-own not-set of-image of-number of-row one-in one-less one-more one-out one-passes one-set one-word or-case
or-l or-r or-set other-none other-row own-row pair-ends path-inside pick-less pick-run placed-at rank-between rank-rises read-keeps
read-low read-short rest-at row-keeps row-made rows-at rows-made run-enters running-more same-length same-refl set-more sets-more
size-none size-of so-far some-left square-le step-case sub-by sum-first sum-is sum-more table-at taken-here takes-one test-of
to-end told-of too-long two-is value-none walk-here want-is way-end way-next when-false when-true with-all with-rest within-more
within-none without-in without-other word-low word-lt write-keeps write-read writes-as written-none bare-spec enter-spec fill-spec
first-spec give-spec half-spec held-spec look-spec lower-spec make-spec new-spec one-spec open-spec pick-spec put-spec read-spec
release-spec start-spec step-spec write-spec""".split()


# a definition beside a constructor that would have its name; and a lemma, which port.py respelled, beside a definition that would
OTHERWISE = {"isFree": "is_channel_free"}
FIRST = [(path, "step_in", "step-in") for path in
         ("crates/machine/proofs/InPlace.antt", "crates/picking/proofs/InPlace.antt", "crates/records/proofs/step/Proof.antt")]


def files(*tops):
    for top in tops:
        for folder, dirs, names in os.walk(top):
            dirs[:] = sorted(d for d in dirs if d not in ("out", "target", ".git"))
            yield from (os.path.join(folder, n) for n in sorted(names))


def text_of(path):
    with open(path, encoding="utf-8") as f:
        return f.read()


def snake(word):
    word = word.replace("getD", "get_or")  # as the library calls it today
    return re.sub(r"(?<=[a-z0-9])([A-Z])", lambda m: "_" + m.group(1).lower(), word)


def declared():
    """The names that lemma files declare, and those that they take from elsewhere."""
    own, taken, places = set(), set(), {}
    for path in files("crates"):
        if not path.endswith(".antt"):
            continue
        walk = os.path.basename(path) == "Proof.antt"
        for line in text_of(path).splitlines():
            m = re.match(r"\s*use ([\w.'·]+)\.\{(.*)\}", line)
            if m:
                theirs = not m.group(1).startswith("Rattle.") or m.group(1).startswith("Rattle.std")
                taken |= {n.strip() for n in m.group(2).split(",")} if theirs else set()
                continue
            m = DECLARED.match(line)
            if m and not (walk and m.group(2) == m.group(2).lower()):
                own.add(m.group(2))
                places.setdefault(path, set()).add(m.group(2))
    return own, taken, places


def renamings():
    own, taken, places = declared()
    own |= {n for n in TURNED if "-" in n and "_".join(n.split("-")) in own}
    heads = {snake(n) for n in own if "-" not in n} | LIBRARY
    heads |= {h.split("_")[0] for h in heads if h.endswith(("_of", "_in", "_to"))}
    new = {}
    for name in sorted(own - taken):
        if name in TURNED:
            new[name] = name.replace("-", "_")
            continue
        parts = [snake(p) for p in name.split("-")]
        spelled = parts[0]
        joined = True
        for before, part in zip(parts, parts[1:]):
            joined = joined and before in heads and part in heads
            spelled += ("-" if joined else "_") + part
        if spelled != name:
            new[name] = spelled
    # a new spelling that another name has, or two names have, is not taken
    for name in list(new):
        others = [o for o in new if new[o] == new[name] and o != name]
        if (new[name] in own | taken or others) and name not in TURNED and "-" in name:
            plain = "-".join(snake(p) for p in name.split("-"))
            new[name] = plain
            print(f"{name}: {plain}, since another name has the spelling of words", file=sys.stderr)
        elif new[name] in own | taken and name not in TURNED:
            print(f"{name}: {new[name]}, as another name", file=sys.stderr)
    new |= OTHERWISE
    new = {name: spelled for name, spelled in new.items() if name != spelled}
    return new


def spell(text, new):
    """Every name of the text that is renamed; of fields only those that are declared, in camel case."""
    swap = lambda m: new.get(m.group(1), m.group(1))
    field = lambda m: "." + (new.get(m.group(1), m.group(1)) if m.group(1) != m.group(1).lower() else m.group(1))
    return FIELD.sub(field, NAME.sub(swap, text))


def prose(text, new):
    """A comment or a document: names in camel case anywhere, others between backticks alone."""
    camel = {old: name for old, name in new.items() if old != old.lower()}
    return re.sub(r"`[^`\n]*`", lambda m: spell(m.group(0), new), spell(text, camel))


def papers():
    """In documents and edits: names in camel case whose spelling in words is declared by now."""
    own = declared()[0] | {"get_or"}
    for path in [*files("crates", "docs"), "README.md", "CONTRIBUTING.md"]:
        if path.endswith((".edit", ".md")) and not path.endswith("PORT.md"):
            found = re.findall(r"(?<![\w'·◌-])[a-z]\w*[A-Z][\w'-]*", text_of(path))
            turned = spell(text_of(path), {name: snake(name) for name in found if snake(name) in own})
            if turned != text_of(path):
                with open(path, "w", encoding="utf-8") as f:
                    f.write(turned)


def main():
    if "--papers" in sys.argv:
        papers()
        return
    for path, old, name in FIRST:
        text = re.sub(r"(?<![\w.·-])" + old + r"(?![\w-])", name, text_of(path))
        with open(path, "w", encoding="utf-8") as f:
            f.write(text)
    new = renamings()
    if "--list" in sys.argv:
        for name in sorted(new):
            print(name, new[name])
        return
    for path in [*files("crates", "docs"), "README.md", "CONTRIBUTING.md"]:
        mark = {".antt": "--", ".rt": "//"}.get(os.path.splitext(path)[1])
        if mark:
            lines = (line.partition(mark) for line in text_of(path).split("\n"))
            turned = "\n".join(spell(code, new) + sign + prose(note, new) for code, sign, note in lines)
        elif path.endswith(".edit"):
            turned = spell(text_of(path), new)
        elif path.endswith(".md"):
            turned = prose(text_of(path), new)
        else:
            continue
        if turned != text_of(path):
            with open(path, "w", encoding="utf-8") as f:
                f.write(turned)


main()

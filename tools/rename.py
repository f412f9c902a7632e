#!/usr/bin/env python3
"""Brings the repository's own definitions and lemmas to the spelling of today's Rattle.

usage: python3 tools/rename.py [--list]        at the top, once, after /opt/rattle/port/port.py

A name that is declared in specs/ or proofs/, a record's field and a constructor are spelled so: a fact, whose type ends in
`Type 0`, in upper camel case; everything else in snake case. A lemma whose name begins with a definition's name keeps the
dash after it. Names in src/ stay, and so do those of goals. The names that port.py respelled are turned in the documents too.
"""

import glob
import re
import sys

DOCS = ["README.md"] + sorted(glob.glob("docs/*.md"))
# what port.py respelled (it turns no document)
BY_PORT = """agrees-at all-digits all-fair and-then as-long as-many at-last at-next at-place before-more below-on cleared-more
count-most count-of end-read filled-more first-fits fitted-short front-at given-back gives-back goes-on has-room has-some
hits-few is-digit label-of last-fits last-line lies-at line-writes lower-by lowered-by move-step moves-more moves-of next-known
none-first none-stays nothing-left number-at number-digits number-in number-of one-more put-next raised-by rank-most read-back
read-count record-of same-more same-spot same-true seen-below seen-none spot-framed spot-in spot-of spread-at tested-at text-of
up-kept up-none went-on within-all within-more""".split()
# names that would fall together with another, or that hold a word of the older library
BY_HAND = {"getD-map-all": "get_or-map_all"}

HEAD = re.compile(r"^(?:(abbrev|unfoldable) )?(?:pub )?(?:(data|record) )?([^\s:()]+)((?: [({][^=]*)?) : (.*)$")
PART = re.compile(r"^ +(?:pub )?([^\s:()|={}λ]+) : ")


def texts(pattern):
    return [f for f in sorted(glob.glob(pattern, recursive=True)) if "/out/" not in f]


def declared():
    """The names of specs/ and proofs/: those of definitions, of facts and of lemmas."""
    definitions, facts, lemmas = set(), set(), set()
    for f in texts("crates/*/specs/*.antt") + texts("crates/*/proofs/**/*.antt"):
        inside = False
        for line in open(f, encoding="utf8"):
            head = HEAD.match(line)
            if head:
                mark, kind, name, _, rest = head.groups()
                inside = kind in ("data", "record")
                if "goal." in rest or "given." in rest:
                    continue
                if rest.strip().endswith(("Type 0", "Type 0 where")) and name[0].isupper():
                    facts.add(name)
                elif mark or kind:
                    definitions.add(name)
                else:
                    lemmas.add(name)
                continue
            part = PART.match(line)
            if inside and part:
                definitions.add(part.group(1))
            elif line.strip() and not line.startswith((" ", "--")):
                inside = False
    return definitions, facts, lemmas


def renamed():
    definitions, facts, lemmas = declared()
    turned = {}
    for n in facts:
        turned[n] = "".join(w[0].upper() + w[1:] for w in n.split("-"))
    for n in definitions:
        turned[n] = n.replace("-", "_")
    for n in lemmas - definitions:
        heads = [d for d in definitions | facts if n.startswith(d + "-")]
        head = max(heads, key=len, default="")
        rest = n[len(head) + 1:] if head else n
        turned[n] = (turned[head] + "-" if head else "") + rest.replace("-", "_")
    turned |= BY_HAND
    return {a: b for a, b in turned.items() if a != b}


def token(names):
    return re.compile(r"(?<![\w'◌-])(?<!goal\.)(" + "|".join(re.escape(n) for n in sorted(names, key=len, reverse=True)) + r")(?![\w'◌-])")


def main():
    turned = renamed()
    if "--list" in sys.argv:
        for a, b in sorted(turned.items()):
            print(a, b)
        return
    both = token(turned)
    for f in texts("crates/**/*.antt") + texts("crates/**/*.rt"):
        old = open(f, encoding="utf8").read()
        new = both.sub(lambda m: turned[m.group(1)], old)
        if new != old:
            open(f, "w", encoding="utf8").write(new)
    by_port = {n: n.replace("-", "_") for n in BY_PORT}
    words = token(turned | by_port)
    quoted = re.compile(r"`[^`\n]*`")
    for f in DOCS:
        old = open(f, encoding="utf8").read()
        new = quoted.sub(lambda q: words.sub(lambda m: (turned | by_port)[m.group(1)], q.group(0)), old)
        if new != old:
            open(f, "w", encoding="utf8").write(new)


main()

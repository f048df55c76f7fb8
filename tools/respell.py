#!/usr/bin/env python3
"""tools/respell.py: brings the house's own names to snake case, as the language's library spells its own.

usage: python3 tools/respell.py        at the top of the house, once, with everything committed

Definitions, lemmas, fields and bound names of specs/ and proofs/ lose their capitals and dashes: `memberOf` becomes
`member_of`, `turns-keep` becomes `turns_keep`. A lemma that would get the name of a definition in the same file gets
`_lem` behind it. Names of the library, of functions in src/, types and modules stay. The names in backticks in README.md
and docs/ follow, those that the port's own script turned too. It prints how many names it turned.
"""
import re
import sys
from pathlib import Path

HOUSE = Path(__file__).resolve().parent.parent
NAME = re.compile(r'[^\s\[\](){}.;,«»"`]+')
TURNS = re.compile(r"^[a-z][a-z0-9_']*[A-Z]|[A-Za-z0-9₀-₉'_]-[A-Za-z0-9]")
IMPORT = re.compile(r"^use ([^\s{]+?)\.?\{([^}]*)\}", re.M)
COMMENT = re.compile(r"--.*")

# What the rule doesn't say: facts have capitals, and two lemmas have the name that a field and a definition get.
FACTS = {"goesOn": "GoesOn", "travels": "Travels"}
APART = {
    "crates/link/proofs/Tables.antt": {"no_start": "no_start_lem"},
    "crates/link/proofs/ToTask.antt": {"held_by": "held_by_lem"},
}
# Names that the port's script turned, which pages name.
PORTED = """add-at add-body add-half alike-same all-hold allBelow allFrom and-assoc and-left and-no and-right and-yes at-most
below-at below-both below-by below-fails below-false below-more below-none below-of below-power below-rows below-suc by-bit
by-count by-kind by-result by-token byteAt bytesOf cast-t cell-below cellOf count-fits count-most countOf covered-of
decimal-digit down-is each-at each-below each-of emptyAt endedOf enter-spec entry-at entry-new entry-old entry-spec entryAt
entryOf eqb-same first-below first-done first-kind first-says firstOf fit-at free-of fresh-ok fresh-up front-kept goes-on
half-spec head-passed held-by home-of is-empty-spec isEmpty isMove kindAt kindOf last-bit last-done last-end last-says lineAt
lineOf list-held live-here log-is ltb-next main-spec mask-fits maskOf member-below member-union mode-of modeOf moveOf
moved-all moved-at moved-length moved-more movedTo mul-at namesOf no-member no-other no-result no-start none-below none-first
not-behind not-home not-itself number-small numberOf one-down one-more or-left or-right or-yes part-of passed-is passedBy
past-end planOf pop-spec popOf put-one put-spec put-up putOf queuedAt quiet-is quiet-short read-spec readOf ready-links
resultBy resultTaken right-of roomFor row-kept rows-fit run-spec runFrom same-add same-at same-entries same-head same-kind
same-length same-line same-more same-move same-row same-size same-test second-way set-at set-other sizeAt small-of so-far
soFar some-written start-of startOf stateOf store-at store-spec sum-one tableOf taskOf turn-last turn-more turnOf turns-same
typed-then up-is up-kept up-room upTo vectorsOf waits-kept walk-ends wayOf withLast withList without-other wordAt""".split()
PAGES = ["README.md", *(f"docs/{n}.md" for n in ("COST", "DECISIONS", "LAW", "MAP", "PROMISES", "READING"))]


def read(path):
    return path.read_text(encoding="utf-8")


def snake(name):
    name = re.sub(r"(?<=[a-z0-9])([A-Z])", lambda m: "_" + m[1].lower(), name.replace("-", "_"))
    return re.sub(r"_([A-Z])(?=_|$)", lambda m: "_" + m[1].lower(), name)


def files(*kinds):
    return sorted(p for kind in kinds for p in HOUSE.glob(f"crates/*/{kind}"))


def words(text):
    return set(NAME.findall(COMMENT.sub("", text)))


def turned():
    """Of each name that turns, what it becomes."""
    texts = [read(p) for p in files("specs/**/*.antt", "proofs/*.antt")]
    library = {
        name.split(" as ")[0].strip()
        for text in texts
        for path, names in IMPORT.findall(text)
        if not path.startswith("Rattle.") or path.startswith("Rattle.std.")
        for name in names.split(",")
    }
    used = [words(text) for text in texts]
    names = {n for ws in used for n in ws if TURNS.search(n)} - library
    to = {n: FACTS.get(n) or snake(n) for n in names}
    homes = {}
    for n in names:
        homes.setdefault(to[n], set()).add(n)
    for n in sorted(names):
        if "-" in n:
            others = (homes[to[n]] | {to[n]}) - {n}
            if any(n in ws and ws & others for ws in used):
                to[n] += "_lem"
    return to


def sub(text, to):
    return NAME.sub(lambda m: to.get(m[0], m[0]), text)


def respell_antt(path, to):
    text = read(path)
    here = dict(APART.get(str(path.relative_to(HOUSE)), {}), **to)
    if path.name == "Proof.antt":
        own = {n.split(" as ")[-1].strip() for p, ns in IMPORT.findall(text) if p.startswith("Rattle.") for n in ns.split(",")}
        here = {n: t for n, t in here.items() if n in own or "-" not in n}
        for name in re.findall(r"^pub (\S+-spec) :", text, re.M):
            here[name] = path.parent.name + "_spec"
    lines = []
    for line in text.split("\n"):
        code, dash, comment = line.partition("--") if line.lstrip().startswith("--") else (line, "", "")
        comment = re.sub(r"`[^`]*`", lambda m: sub(m[0], here), comment)
        lines.append(sub(code, here) + dash + sub(comment, {n: t for n, t in here.items() if re.match(r"[a-z]+[A-Z]", n)}))
    path.write_text("\n".join(lines), encoding="utf-8")


def main():
    if len(sys.argv) > 1:
        sys.exit(__doc__)
    to = turned()
    for path in files("specs/**/*.antt", "proofs/**/*.antt"):
        respell_antt(path, to)
    plain = {n: t for n, t in to.items() if "-" not in n}
    for path in files("src/*.rt"):
        path.write_text(sub(read(path), plain), encoding="utf-8")
    for path in files("must-fail/*.edit"):
        path.write_text(sub(read(path), dict(to, **{n: snake(n) for n in PORTED})), encoding="utf-8")
    paged = dict({n: snake(n) for n in PORTED}, **to)
    for page in PAGES:
        path = HOUSE / page
        path.write_text(re.sub(r"`[^`\n]*`", lambda m: sub(m[0], paged), read(path)), encoding="utf-8")
    print(f"respell: {len(to)} names")


main()

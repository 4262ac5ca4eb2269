"""Brings the repository's own definitions and lemmas to today's spelling: words in snake case, types and modules in camel case.

usage: python3 tools/port_names.py            at the top of the repository, once, right after port.py

A name that a file of specs/ or proofs/ declares with a capital in it or with dashes, as wordFor or push-more, becomes word_for and push_more, where
it stands as a name: in specs/, proofs/ and the clauses of src/. Names that begin with a capital, functions of src/, and names that Rattle makes (the
goals and steps of a function, which only its own proof file cites) stay. It writes nothing of that where two names fall together.
"""
import collections
import os
import re
import sys

# A lemma that would have a definition's name, or a field or constructor that would: what stands in its place.
OTHER = {
    "atom-taken": "atom_taken_lem",
    "body-by": "body_by_lem",
    "body-words": "body_words_lem",
    "branch-after": "branch_after_lem",
    "cell-here": "cell_here_lem",
    "clause-by": "clause_by_lem",
    "clause-now": "clause_now_lem",
    "clause-of": "clause_of_lem",
    "count-texts": "count_texts_lem",
    "entry-at": "entry_at_lem",
    "first-own": "first_own_lem",
    "goal-by": "goal_by_lem",
    "goal-of": "goal_of_lem",
    "head-matches": "head_matches_lem",
    "left-run": "left_run_lem",
    "links-part": "links_part_lem",
    "look-on": "look_on_lem",
    "made-now": "made_now_lem",
    "memo-words": "memo_words_lem",
    "next-own": "next_own_lem",
    "only-when": "only_when_lem",
    "right-run": "right_run_lem",
    "scope-by": "scope_by_lem",
    "start-words": "start_words_lem",
    "term-word": "term_word_lem",
    "text-by": "text_by_lem",
    "text-of": "text_of_lem",
    "tie-run": "tie_run_lem",
    "two-more": "two_more_lem",
    "and-kind": "and_kind_lem",
    "atom-kind": "atom_kind_lem",
    "or-kind": "or_kind_lem",
    "suppose-kind": "suppose_kind_lem",
    "unknown-terms": "unknown_terms_lem",
    "in-hand": "goal_in_hand",
    "is-term": "is_a_term",
}
# Lemmas that port.py gave a definition's name: the files in which the name is the lemma's.
LEMMAS = {
    "fields_fit": ("crates/book/proofs/Accepted.antt",),
    "first_of": ("crates/returning/proofs/ClashLaws.antt",),
    "no_body": ("crates/returning/proofs/BodyGoals.antt",),
    "run_of": ("crates/branch/proofs/FromScoped.antt", "crates/steps/proofs/ReadyLaws.antt", "crates/returning/proofs/ClashLaws.antt"),
    "run_on": ("crates/running/proofs/RunEnds.antt", "crates/running/proofs/run/Proof.antt"),
    "word_of": ("crates/words/proofs/SlotLaws.antt",),
}
# A parameter of two definitions, and names that a file gives to another's.
PARAMETERS = {"outerBase": "outer_base"}
ALIASES = {"bookField": "book_field", "bumpSpec": "bump_spec", "givenTally": "given_tally", "lowerOf": "lower_of", "recordsOf": "records_of", "verdictOf": "verdict_of"}
NAME = r"[^\s(){}.,;:`\"\[\]]+"
TOKEN = re.compile(rf"(?<![^\s(){{}}.,;:`\"\[\]λ]){NAME}")
HEAD = re.compile(rf"^(\s*)((?:(?:abbrev|unfoldable|pub|mutual|instance)\s+)*)({NAME})((?:\s+(?:\([^)]*\)|\{{[^}}]*\}}))*)\s+:(?!=)\s*(.*)")


def files(ends, *below):
    for top in below or ("crates",):
        for folder, dirs, names in os.walk(top):
            dirs[:] = sorted(d for d in dirs if d not in ("out", "target", ".git"))
            for name in sorted(names):
                if name.endswith(ends):
                    yield os.path.join(folder, name)


def read(path):
    with open(path, encoding="utf-8") as f:
        return f.read()


def snake(name):
    name = re.sub(r"(?<=[a-z0-9'])(?=[A-Z])", "_", name.replace("-", "_"))
    return name.lower()


def made(path):
    "Whether the file is the proof of a function, in which Rattle's names are cited."
    return os.path.basename(path) == "Proof.antt"


def declared(path):
    depth_record = False
    for line in read(path).split("\n"):
        if line.strip().startswith("--"):
            continue
        if line and not line[0].isspace():
            depth_record = bool(re.match(r"(?:pub\s+)?(?:(?:abbrev|unfoldable|pub)\s+)*(?:record|data)\b", line))
        several = re.match(rf"\s+({NAME}(?: {NAME})+) : \w+$", line)
        if several:
            yield from ((name, False) for name in several.group(1).split())
            continue
        m = HEAD.match(line)
        if m and m.group(3) not in ("module", "where", "record", "data"):
            if made(path) and (m.group(1) or re.match(r"(tie|goal|given)\.|.*\bstatement\b|\(.*:.*\).*→", m.group(5)) and re.match(r"(tie|goal|given)\.|.*\bstatement\b", m.group(5))):
                continue
            yield m.group(3), bool(m.group(1)) and not depth_record
    return


def wanted():
    """The names to turn: for every file, and for one proof file alone."""
    everywhere, alone = {}, collections.defaultdict(dict)
    for path in files(".antt"):
        for name, _ in declared(path):
            if name[0].isupper() or not re.search(r"[A-Z]|.-.", name) or name.startswith("Rattle"):
                continue
            if not re.fullmatch(r"[A-Za-z0-9_'₀-₉-]+", name):
                continue
            if made(path):
                alone[path][name] = OTHER.get(name, snake(name))
            else:
                everywhere[name] = OTHER.get(name, snake(name))
    return everywhere, alone


def turned(text, table):
    return TOKEN.sub(lambda m: table.get(m.group(), m.group()), text)


def write(path, old, new):
    if old != new:
        with open(path, "w", encoding="utf-8") as f:
            f.write(new)


def turn_clauses(text, table):
    "A file of src/: the ghost items and the clauses. A word of the code has no capital after its first letter, and no dash, so a name of the table is none."
    return "\n".join(line if line.lstrip().startswith("//") else turned(line, table) for line in text.split("\n"))


def main():
    for name, paths in LEMMAS.items():
        for path in paths:
            text = read(path)
            write(path, text, re.sub(rf"(?<![\w.'-]){name}(?![\w'-])", name + "_lem", text))
    everywhere, alone = wanted()
    fall = collections.defaultdict(set)
    for old, new in everywhere.items():
        fall[new].add(old)
    bad = 0
    for new, olds in sorted(fall.items()):
        if len(olds) > 1:
            print("together:", new, sorted(olds))
            bad += 1
    for path in files(".antt"):
        text = re.sub(r"(?m)^\s*--.*$|(?<=use )Rattle\.[\w.+-]+", "", read(path))
        words = set(TOKEN.findall(text))
        for old in words & set(everywhere):
            if everywhere[old] in words:
                print("stands already:", path, old, everywhere[old])
                bad += 1
        for old, new in alone[path].items():
            if new in words or new in {everywhere.get(w) for w in words if w != old}:
                print("stands already (alone):", path, old, new)
                bad += 1
    print(len(everywhere), "names,", sum(map(len, alone.values())), "of one proof file")
    if bad:
        return 1
    for path in files((".antt", ".rt")):
        text = read(path)
        table = {**PARAMETERS, **everywhere, **alone[path], **{old: new for old, new in ALIASES.items() if f" as {old}" in text}}
        write(path, text, turned(text, table) if path.endswith(".antt") else turn_clauses(text, table))
    return 0


if __name__ == "__main__":
    sys.exit(main())

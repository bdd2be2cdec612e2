#!/usr/bin/env python3
"""Respells the repository's own definitions and lemmas: words in snake case, as the library's are.

Run once, at the top, after the kit's port.py. It renames what specs/ and the lemma files of proofs/ declare, wherever
it is cited: in .antt files, and in the ghost lines and clauses of .rt files. Must-fail edits are brought over by hand. Types
keep their capitals; names that the prover makes, functions of src/, strings and comments stay as they are.
"""
import collections
import glob
import re
import sys

TOKEN = r"[^\s(){}\[\];,.@\"`]+"
# Where the rule would spell one name as another, or as a word of the library.
BY_HAND = {
    "all-of-it": "all_of_it_lem",
    "code-count": "code_count_lem",
    "day-at": "day_at_lem",
    "entity-of": "entity_of_lem",
    "facts-from": "facts_from_lem",
    "form-codes": "form_codes_lem",
    "in-common": "in_common_lem",
    "is-moment": "is_moment_lem",
    "parties-from": "parties_from_lem",
    "party-from": "party_from_lem",
    "program-reports": "program_reports_lem",
    "program-writes": "program_writes_lem",
    "record-count": "record_count_lem",
    "rule-count": "rule_count_lem",
    "some-row": "some_row_lem",
    "time-from": "time_from_lem",
    "trade-from": "trade_from_lem",
    "value-size": "value_size_lem",
    "wrong-by": "wrong_by_lem",
    "row-of": "row_of_lem",
    "width-in": "width_in_lem",
    "pair-of": "pair_of_lem",
    "not-whole": "not_whole_lem",
    "number-of": "number_written",
    "pair-stands": "pair_is",
    "is-value": "holds_value",
    "getD-find": "get_or_find",
}
# The same, in one file.
BY_HAND_IN = {
    "crates/day/proofs/Seats.antt": {"of-firm": "of_firm_by", "of_none": "of_none_by", "record_of": "record_of_by"},
    "crates/conditions/specs/Afternoon.antt": {"no_room": "no_room_left"},
    "crates/conditions/proofs/Afternoon.antt": {"no_room": "no_room_left"},
    "crates/amount/proofs/Shape.antt": {"point_at": "point_at_lem"},
}


def lemma_files():
    for kind in ("specs", "proofs"):
        for path in sorted(glob.glob(f"crates/*/{kind}/**/*.antt", recursive=True)):
            if not path.endswith(("/Proof.antt", "/Answers.antt", "/Invariants.antt")):
                yield path


def declared():
    """The names that the lemma files declare, each with where."""
    names = collections.defaultdict(set)
    for path in lemma_files():
        for line in open(path, encoding="utf8"):
            line = line.rstrip("\n")
            if line.startswith("--"):
                continue
            found = re.match(rf"^((?:abbrev |unfoldable |pub |record |data |ruleset )*)({TOKEN})(?= )", line)
            if found and not re.match(r"^(pub )?(use|mod|module|unfolding) ", line):
                if found[1] or f"{found[2]} :" in line:
                    names[found[2]].add(path)
            found = re.match(rf"^\s+(?:pub )?({TOKEN}) : ", line)
            if found:
                names[found[1]].add(path)
            for alias in re.findall(rf" as ({TOKEN})", line) if re.match(r"^(pub )?use ", line) else []:
                names[alias].add(path)
    return names


def respelled(name):
    if name in BY_HAND:
        return BY_HAND[name]
    if not re.match(r"^[A-Za-z][A-Za-z0-9_'₀-₉-]*$", name):
        return name
    words = name.replace("-", "_")
    if name[0].islower():
        words = re.sub(r"(?<=[a-z0-9])([A-Z]+)(?![a-z])", lambda m: "_" + m[1].lower(), words)
        words = re.sub(r"(?<=[a-z0-9])([A-Z])", lambda m: "_" + m[1].lower(), words)
        words = re.sub(r"_([A-Z])(?=[a-z])", lambda m: "_" + m[1].lower(), words)
    return words


def turned(text, names):
    """The text with each citation of a name respelled."""
    out = []
    for line in text.split("\n"):
        if re.match(r"^(pub )?use Rattle\.[a-z0-9_]+\.proofs\.[a-z+]", line):
            head, aliased, alias = line.partition(" as ")
            out.append(head + aliased + (names.get(alias, alias) if aliased else ""))
            continue
        code, dashes, comment = (line, "", "") if '"' in line else line.partition("-- ")
        if line.lstrip().startswith("--"):
            out.append(line)
            continue

        def swap(found):
            name = found[0]
            if name not in names:
                return name
            before = code[: found.start()]
            if before.count('"') % 2:
                return name
            return names[name]

        out.append(re.sub(TOKEN, swap, code) + dashes + comment)
    return "\n".join(out)


def turned_source(text, names):
    """As `turned`, of a .rt file: comments and strings stay, and a name is a word between other characters."""
    out = []
    for line in text.split("\n"):
        code, slashes, comment = (line, "", "") if '"' in line else line.partition("//")
        swap = lambda m: names.get(m[0], m[0])
        if '"' in code and not re.search(r"ghost use|ensures|requires", code):
            out.append(line)
            continue
        out.append(re.sub(rf"(?<![\w.'-])[A-Za-z][\w'₀-₉-]*", swap, re.sub(r"(?<=[A-Z]\w\.|\w\w\.)[a-z]\w*[A-Z]\w*", swap, code)) + slashes + comment)
    return "\n".join(out)


def main():
    names = {}
    where = declared()
    for name in where:
        new = respelled(name)
        if new != name:
            names[name] = new
    into = collections.defaultdict(set)
    for name in where:
        into[names.get(name, name)].add(name)
    clash = {new: olds for new, olds in into.items() if len(olds) > 1}
    if "--look" in sys.argv:
        for new, olds in sorted(clash.items()):
            print(new, {o: sorted(where[o]) for o in olds})
        print(len(names))
        return
    for path in glob.glob("crates/*/specs/**/*.antt", recursive=True) + glob.glob("crates/*/proofs/**/*.antt", recursive=True):
        text = open(path, encoding="utf8").read()
        new = turned(text, {**names, **BY_HAND_IN.get(path, {})})
        if new != text:
            open(path, "w", encoding="utf8").write(new)
    for path in glob.glob("crates/*/src/**/*.rt", recursive=True):
        text = open(path, encoding="utf8").read()
        new = turned_source(text, names)
        if new != text:
            open(path, "w", encoding="utf8").write(new)


main()

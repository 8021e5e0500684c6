#!/usr/bin/env python3
"""Write the cases of tools/cases/types.jsonl as antt modules of evaluated lemmas.

usage: tools/type_cases.py [--check] [--all] [--lines LINES] [--per MODULE_LINES] OUT

Each case is one lemma: what is refused first in its script, and where, or the sites
and the sum of the bounds that it has. Where the script has a type and names seals
or keys, a second lemma counts them. Without a choice a selection is written: of
each kind of refusal, and of scripts that have a type, as many as MOST says, where
there are so many, and each word, form, operator and statement in at least three.
--all writes each case, LINES are numbers of lines, as 3,8-12, or `none`. OUT is a
folder: Types1.antt and so on are written there, and files of such names that were
there are removed. OUT.antt names them. With --check nothing is written: the files
that are not as they would be are named, and the status is 1 where there are some.
"""

from collections import Counter

import cases

TOOL = "tools/type_cases.py"
TYPES = "Rattle.cd_types.specs"
MEANING = "Rattle.cd_meaning.specs"
LEAST = 3
MOST = 16

KINDS = {
    1: "KindMismatch", 2: "SeesChunks", 3: "NeedsElements", 4: "DropsRest", 5: "NotInvertible", 6: "NameTwice",
    7: "Seal", 8: "BoundTooLarge", 9: "ResultLost", 10: "TooMany", 11: "OpenEnd", 12: "Key",
}
PLACES = {"Reading": "Reads", "Writing": "Writes", "Marking": "Marks", "Stdin": "ReadsInput", "Stdout": "WritesOutput"}
# where the length of a literal may count in characters
COUNTED = ("texts_word", "prefix", "suffix", "intersperse_word", "zip_source_form")
SHORT = [
    *cases.WORDS.values(), *cases.CLASSES.values(), *cases.TESTS.values(), *cases.MAPS.values(), "not_class", "not_test",
    *cases.OPERATORS.values(), *cases.FORMS.values(), *cases.STATEMENTS.values(),
]
IMPORTS = [
    ("Rattle.std.specs.Prelude", "List [] ◌∷◌ ◌≡◌ codes"),
    ("Rattle.std.specs.Str", "chars"),
    (f"{MEANING}.Places", "Reads ReadsInput Writes WritesOutput Marks"),
    (f"{MEANING}.Rows.Trees", "Sentence"),
    (f"{MEANING}.Rows.Short", " ".join(SHORT)),
    (f"{TYPES}.declared.refusal.RefusalKind.TheVariants", " ".join(KINDS.values())),
    (f"{TYPES}.Rows.Trees", "verdict verdict_is refused passed names names_are counted"),
]


def place(site):
    use, name = site
    return cases.applied(PLACES[use], cases.literal(name)) if use in ("Reading", "Writing", "Marking") else PLACES[use]


def answer(case):
    if "refused" in case:
        assert KINDS[case["refused"]] == case["name"]
        return f"refused {case['name']} {case['statement']} {case['part']}"
    return f"passed {cases.listed([place(site) for site in case['sites']])} {case['total']}"


def opened(lines):
    """What the lemma of these lines is computed with: the characters of a literal."""
    return ["unfolding chars"] if cases.names_in(lines) & set(COUNTED) else []


def lemmas(line, case):
    name = f"script_{line}"
    lines = ["-- " + text for text in case["script"].splitlines()]
    lines += [f"abbrev {name} : List Sentence"]
    lines += cases.wrapped(f"{name} = {cases.unwrapped(cases.listed([cases.unwrapped(cases.statement(s)) for s in case['tree']]))}")
    lines += ["", *cases.wrapped(f"{name}_answer : verdict {name} ≡ {answer(case)}"), *opened(lines), f"{name}_answer = verdict_is {name}", ""]
    if case.get("seals") or case.get("keys"):
        lines += [f"{name}_names : names {name} ≡ counted {case['seals']} {case['keys']}", f"{name}_names = names_are {name}", ""]
    return lines


def used_imports(lines):
    used = cases.names_in(lines)
    for module, names in IMPORTS:
        kept = [name for name in names.split() if name.strip("◌") in used]
        if kept:
            yield f"use {module}.{{{', '.join(kept)}}}"


def selection(read, groups):
    """Lines of cases of which each answer stands in MOST and each name in LEAST, where there are so many."""
    answers, counts, chosen = Counter(), Counter(), []
    for line, group in groups.items():
        kind = read[line].get("refused")
        names = cases.names_in(group) & set(SHORT)
        if answers[kind] < MOST or any(counts[name] < LEAST for name in names):
            chosen.append(line)
            answers[kind] += 1
            counts.update(names)
    return chosen


def write_all(out, options):
    """Writes the modules and their index, and tells what was chosen."""
    out.mkdir(parents=True, exist_ok=True)
    read = cases.read_cases("types.jsonl")
    groups = {line: lemmas(line, case) for line, case in read.items()}
    chosen = options.lines if options.lines is not None else list(groups) if options.all else selection(read, groups)
    names = cases.write_modules(out, TOOL, "Types", [groups[line] for line in chosen], options.per, used_imports)
    cases.write_index(out, TOOL, names)
    kinds = Counter(read[line].get("name", "typed") for line in chosen)
    return [f"{len(chosen)} of {len(read)} cases", *[f"{name}: {count}" for name, count in sorted(kinds.items())]]


if __name__ == "__main__":
    cases.main(__doc__, TOOL, ("--lines",), write_all)

#!/usr/bin/env python3
"""Write the cases of tools/cases as antt modules of evaluated lemmas.

usage: tools/cases.py [--check] [--all] [--words LINES] [--scripts LINES] [--per MODULE_LINES] OUT

Without a choice a selection is written: each word, form, operator, statement,
class, mark and fault that the cases have stands in at least three of them, where
there are so many. --all writes each case. LINES are numbers of lines, as 3,8-12,
or `none`. OUT is a folder: Words1.antt, Scripts1.antt and so on are written there,
and files of such names that were there are removed. OUT.antt names them. With
--check nothing is written: the files that are not as they would be are named, and
the status is 1 where there are some.
"""

import argparse
import json
import re
import sys
import tempfile
import textwrap
from collections import Counter
from pathlib import Path

DATA = Path(__file__).resolve().parent / "cases"
TOOL = "tools/cases.py"
# the module of the folder that is written by hand
KNOWN = "Known"
SPECS = "Rattle.cd_meaning.specs"
WIDTH = 150
LEAST = 3

# ---- the constructors of a tree and the short names of Rows.Short

WORDS = {
    "PassE": "pass_e", "TakeE": "take_e", "TakeWhileE": "take_while_e", "FilterE": "filter_e",
    "MapE": "map_e", "RepeatE": "repeat_e", "DropE": "drop_e", "DropWhileE": "drop_while_e",
    "HeadE": "head_e", "PeekE": "peek_e", "LastE": "last_e", "LengthE": "length_e", "SumE": "sum_e",
    "AllE": "all_e", "AnyE": "any_e", "NullE": "null_e", "CollectE": "collect_e", "SinkNull": "sink_null",
    "Pass": "pass_word", "Take": "take_word", "TakeWhile": "take_while_word", "Filter": "filter_word",
    "Repeat": "repeat_word", "Map": "map_word", "Intersperse": "intersperse_word", "Drop": "drop_word",
    "DropWhile": "drop_while_word", "Head": "head_word", "Peek": "peek_word", "Last": "last_word",
    "Length": "length_word", "Null": "null_word", "Collect": "collect_word",
    "Lines": "lines_word", "Split": "split_word", "Exact": "exact_word", "ChunksOf": "chunks_of_word",
    "Flat": "flat_word", "Unlines": "unlines_word",
    "Utf8": "utf8_word", "Utf8Lenient": "utf8_lenient_word", "Utf8Encode": "utf8_encode_word",
    "HexEncode": "hex_encode_word", "HexDecode": "hex_decode_word",
    "Base64Encode": "base64_encode_word", "Base64Decode": "base64_decode_word",
    "SourceFile": "source_file_word", "Stdin": "stdin_word", "Bytes": "bytes_word", "Text": "text_word",
    "Blocks": "blocks_word", "Texts": "texts_word", "Replicate": "replicate_word", "Range": "range_word",
    "SinkFile": "sink_file_word", "Stdout": "stdout_word",
}
CLASSES = {
    "Digit": "digit", "Upper": "upper", "Lower": "lower", "Alpha": "alpha", "Alnum": "alnum",
    "Hexdigit": "hexdigit", "Space": "space", "Newline": "newline", "Is": "is_scalar", "Below": "below",
}
TESTS = {"Empty": "empty", "Begins": "begins", "Ends": "ends", "Shorter": "shorter"}
MAPS = {"Xor": "xor", "Add": "add", "Rot13": "rot13", "Prefix": "prefix", "Suffix": "suffix", "Reverse": "reversed"}
OPERATORS = {
    "Plain": "piped", "Keep": "piped_keep", "Return": "piped_return",
    "Both": "piped_both", "Up": "piped_up", "Asked": "piped_asked",
}
FORMS = {
    "Exactly": "exactly_form", "ExactlyE": "exactly_e_form", "LineE": "line_e_form", "Mark": "mark_form",
    "Tee": "tee_form", "ZipSource": "zip_source_form", "ZipSink": "zip_sink_form", "ZipConduit": "zip_conduit_form",
    "Sequence": "sequence_form",
}
STATEMENTS = {
    "Run": "run_statement", "Seal": "let_statement", "Feed": "feed_statement", "CloseSeal": "close_statement",
    "Hold": "hold_statement", "Release": "release_statement",
}
FAULTS = {"BadText": "bad_text", "BadHex": "bad_hex", "BadBase64": "bad_base64"}
MARKS = {"End": "AtEnd", "More": "MayGoOn", "Bad": "Broken", "Long": "TooLong"}


def split_tree(tree):
    """The constructor of a tree and its arguments."""
    return (tree, []) if isinstance(tree, str) else (tree[0], tree[1:])


def applied(name, *arguments):
    return "(" + " ".join([name, *arguments]) + ")" if arguments else name


# ---- lists and literals

def listed(items):
    return "(" + " ∷ ".join([*items, "[]"]) + ")" if items else "[]"


def numbers(values):
    """Numbers as a list: the codes of a text where all are plain signs of ASCII."""
    text = "".join(map(chr, values))
    if re.fullmatch(r"[!#-\[\]-~]+", text):
        return f'(codes "{text}")'
    return listed(map(str, values)) if values else "[]"


def literal(text):
    """A literal as the bytes of its text."""
    return numbers(list(text.encode("utf-8")))


def scalar(text):
    assert len(text) == 1
    return str(ord(text))


# ---- words, forms and statements

def tested(test, names, negation):
    """A class or a test."""
    name, arguments = split_tree(test["what"])
    written = [str(a) if isinstance(a, int) else scalar(a) if name == "Is" else literal(a) for a in arguments]
    plain = applied(names[name], *written)
    return applied(negation, plain) if test["negated"] else plain


def mapped(tree):
    name, arguments = split_tree(tree)
    return applied(MAPS[name], *[str(a) if isinstance(a, int) else literal(a) for a in arguments])


def word(tree):
    name, arguments = split_tree(tree[1])
    if name in ("TakeWhileE", "FilterE", "DropWhileE", "AllE", "AnyE"):
        written = [tested(arguments[0], CLASSES, "not_class")]
    elif name in ("TakeWhile", "Filter", "DropWhile"):
        written = [tested(arguments[0], TESTS, "not_test")]
    elif name in ("MapE", "Map"):
        written = [mapped(arguments[0])]
    elif name == "Split":
        written = [scalar(arguments[0]), str(arguments[1])]
    elif name in ("Blocks", "Texts"):
        written = [listed([literal(a) for a in arguments[0]])]
    else:
        written = [str(a) if isinstance(a, int) else literal(a) for a in arguments]
    return applied(WORDS[name], *written)


def parts(trees):
    return listed([unwrapped(pipe(tree)) for tree in trees])


def pipe(tree):
    name, arguments = split_tree(tree)
    if name == "Word":
        return word(arguments[0])
    if name == "Chain":
        return applied(OPERATORS[arguments[0]], parts(arguments[1]))
    if name == "Sequence":
        return applied(FORMS[name], parts(arguments[0]))
    if name == "ZipSource":
        return applied(FORMS[name], literal(arguments[2]), pipe(arguments[0]), pipe(arguments[1]))
    if name == "Mark":
        return applied(FORMS[name], literal(arguments[0]), pipe(arguments[1]))
    return applied(FORMS[name], *[str(a) if isinstance(a, int) else pipe(a) for a in arguments])


def statement(tree):
    name, arguments = split_tree(tree)
    written = []
    if name in ("Seal", "Feed", "CloseSeal", "Hold", "Release"):
        written = [literal(arguments[0])]
    if name == "Hold":
        written.append(literal(arguments[1]))
    if name in ("Run", "Seal", "Feed", "CloseSeal"):
        written.append(pipe(arguments[-1]))
    return applied(STATEMENTS[name], *written)


# ---- runs

def item(value):
    return applied("Piece", numbers(value)) if isinstance(value, list) else applied("Elem", str(value))


def items(values):
    if not values:
        return "[]"
    if isinstance(values[0], list):
        return applied("map Piece", listed([numbers(v) for v in values]))
    return applied("map Elem", numbers(values))


def result(value):
    name, arguments = split_tree(value)
    if name == "Unit":
        return "Value.Unit"
    if name == "Maybe":
        inner = arguments[0]
        return "absent" if inner is None else applied("present", result(inner))
    if name == "Pair":
        return applied("Value.Pair", result(arguments[0]), result(arguments[1]))
    if name == "ListV":
        parts = "NoValues"
        for part in reversed(arguments[0]):
            parts = applied("Another", result(part), parts)
        return applied("Value.ListV", parts)
    if name in ("BytesV", "TextV"):
        return applied("Value." + name, numbers(arguments[0]))
    argument = arguments[0]
    return applied("Value." + name, str(argument).lower() if isinstance(argument, bool) else str(argument))


def halt(tree):
    name, arguments = tree
    kind, number = arguments
    kind = FAULTS.get(kind, kind)
    return applied({"more": "More", "wait": "More", "stop": "Stop"}[name], applied(kind, str(number)))


def end(tree):
    return "Ended" if tree == "end" else applied("Halted", halt(tree))


def ending(tree):
    if tree == "done":
        return applied("Done", "Value.Unit")
    return applied("Done", result(tree[1])) if tree[0] == "done" else applied("Halts", halt(tree))


def act(tree):
    name, argument = tree
    if name == "out":
        return applied("Out", item(argument))
    if name == "put":
        return applied("Do", applied("Put", *map(str, argument)))
    return applied("Do", applied(name.capitalize(), str(argument)))


def stamp(stamped):
    return applied("stamp", str(stamped["need"]), str(stamped["net"]))


def run(case):
    last = case["ending"]
    written = applied("Ends", stamp(last), ending(last["is"]))
    for stamped in reversed(case["acts"]):
        written = applied("Then", stamp(stamped), act(stamped["act"]), written)
    return written


def effects(trees):
    """A list of effects, where joined puts of a case are one Put per byte."""
    written = []
    for name, *arguments in trees:
        if name == "put":
            written += [f"Put {arguments[0]} {byte}" for byte in arguments[1]]
        else:
            written.append(f"{name.capitalize()} {arguments[0]}")
    return listed(written)


def seen(sites):
    written = "nothing_seen"
    for site in sorted(sites, key=int, reverse=True):
        told = sites[site]
        written = applied("known", site, numbers(told["bytes"]), MARKS[told["mark"]], written)
    return written


# ---- modules

def wrapped(text):
    """One declaration, with the lines behind its first indented."""
    return textwrap.wrap(text, WIDTH, subsequent_indent="    ", break_long_words=False, break_on_hyphens=False)


def unwrapped(text):
    """Without the parentheses around the whole of it."""
    return text[1:-1] if text.startswith("(") else text


LITERALS = ("begins", "ends", "prefix", "suffix", "intersperse_word")


def opened(left, sort):
    """What a word's run is computed with that is opened for it: a literal on texts is its characters."""
    names = ["encode"] if "utf8_encode_word" in left else []
    names += ["chars"] if sort == "Text" and any(f"({word} " in left for word in LITERALS) else []
    return [f"unfolding {' '.join(names)}"] if names else []


def word_lines(line, case):
    name = f"word_{line}"
    left = f"word_run {word(case['word'])} Sort.{case['sort']} {items(case['input'])} {end(case['end'])}"
    return [f"-- {case['text']}", *wrapped(f"{name} : {left} ≡ {unwrapped(run(case))}"), *opened(left, case["sort"]), f"{name} = runs_so _ _ _ _", ""]


def script_lines(line, case):
    name = f"script_{line}"
    lines = ["-- " + text for text in case["script"].splitlines()]
    lines += [f"abbrev {name} : List Sentence"]
    lines += wrapped(f"{name} = {unwrapped(listed([unwrapped(statement(s)) for s in case['tree']]))}")
    lines.append("")
    for number, one in enumerate(case["runs"], 1):
        left = f"{name} {seen(one['seen'])}"
        for what, right in (("effects", effects(one["effects"])), ("ending", ending(one["end"]))):
            lemma = f"{name}_{what}_{number}"
            lines += [*wrapped(f"{lemma} : {what}_of {left} ≡ {unwrapped(right)}"), "unfolding digits encode chars", f"{lemma} = {what}_so _ _", ""]
    return lines


IMPORTS = [
    ("Rattle.std.specs.Prelude", "List [] ◌∷◌ ◌≡◌ codes map true false"),
    ("Rattle.std.specs.Fmt", "digits"),
    ("lib.Utf8", "encode"),
    ("Rattle.std.specs.Str", "chars"),
    (f"{SPECS}.Stream", "Sort Elem Piece Value absent present NoValues Another Input Reading More Stop bad_text bad_hex "
     "bad_base64 ReadBad Long Ended Halted Done Halts Out Do Open Put Close"),
    (f"{SPECS}.Run", "stamp Then Ends"),
    (f"{SPECS}.RunShapes", "AtEnd MayGoOn Broken TooLong"),
    (f"{SPECS}.Rows.Trees", "Sentence"),
    (f"{SPECS}.Rows.Short", " ".join([*WORDS.values(), *CLASSES.values(), *TESTS.values(), *MAPS.values(), "not_class", "not_test",
     *OPERATORS.values(), *FORMS.values(), *STATEMENTS.values()])),
    (f"{SPECS}.Cases.Known", "nothing_seen known word_run runs_so effects_of effects_so ending_of ending_so"),
]
ALL_NAMES = {name.strip("◌") for _, names in IMPORTS for name in names.split()}


def names_in(lines):
    """The names in these lines, other than those in comments and texts."""
    code = " ".join(re.sub(r'"[^"]*"', "", text) for text in lines if not text.startswith("--"))
    return set(re.findall(r"\w+|\[\]|∷|≡", code))


def used_imports(lines):
    """The imports whose names stand in these lines."""
    used = names_in(lines)
    for module, names in IMPORTS:
        kept = [name for name in names.split() if name.strip("◌") in used]
        if kept:
            yield f"use {module}.{{{', '.join(kept)}}}"


def write_modules(out, tool, kind, groups, most, imports):
    """Groups of lines as modules of at most this many lines, with what `imports` makes of them in front; their names."""
    header = f"-- Cases of tools/cases/{kind.lower()}.jsonl, written by {tool}: the number in a name is the line of the case."
    for old in out.glob(f"{kind}[0-9]*.antt"):
        old.unlink()
    room = most - 15
    modules, here = [], []
    for group in groups:
        if here and len(here) + len(group) > room:
            modules.append(here)
            here = []
        here = here + group
    if here:
        modules.append(here)
    for number, lines in enumerate(modules, 1):
        text = [header, *imports(lines), "", *lines]
        (out / f"{kind}{number}.antt").write_text("\n".join(text).rstrip() + "\n", encoding="utf-8")
    return [f"{kind}{number}" for number in range(1, len(modules) + 1)]


def write_index(out, tool, names):
    """The file that names the modules of a folder."""
    index = [f"-- Modules of cases, written by {tool}.", *[f"pub mod {name}" for name in sorted(names)]]
    Path(f"{out}.antt").write_text("\n".join(index) + "\n", encoding="utf-8")


# ---- the choice of cases

def selection(groups):
    """Lines of cases in which each imported name that any case has stands in at least LEAST, where there are so many."""
    counts = Counter()
    chosen = []
    for line, group in groups.items():
        names = names_in(group) & ALL_NAMES
        if any(counts[name] < LEAST for name in names):
            chosen.append(line)
            counts.update(names)
    return chosen


def lines_in(text):
    """The numbers of `3,8-12`; none of `none`."""
    found = []
    for part in [] if text == "none" else text.split(","):
        first, _, last = part.partition("-")
        found += range(int(first), int(last or first) + 1)
    return found


def read_cases(name):
    with open(DATA / name, encoding="utf-8") as lines:
        return {number: json.loads(line) for number, line in enumerate(lines, 1)}


def write_all(out, options):
    """Writes the modules and their index, and tells what was chosen."""
    out.mkdir(parents=True, exist_ok=True)
    names, told = [], []
    for kind, asked, write in (("Words", options.words, word_lines), ("Scripts", options.scripts, script_lines)):
        groups = {line: write(line, case) for line, case in read_cases(f"{kind.lower()}.jsonl").items()}
        chosen = asked if asked is not None else list(groups) if options.all else selection(groups)
        names += write_modules(out, TOOL, kind, [groups[line] for line in chosen], options.per, used_imports)
        lemmas = sum("_so _" in text for line in chosen for text in groups[line])
        told.append(f"{kind.lower()}: {len(chosen)} of {len(groups)} cases, {lemmas} lemmas")
    write_index(out, TOOL, [KNOWN, *names])
    return told


def stale(out, options, write, kept):
    """The files that are not what would be written; those of these names are written by hand."""
    with tempfile.TemporaryDirectory() as folder:
        write(Path(folder) / out.name, options)
        files = {path.relative_to(folder): path.read_bytes() for path in Path(folder).rglob("*.antt")}
    here = {path.relative_to(out.parent) for path in out.glob("*.antt") if path.stem not in kept}
    return sorted([path for path, text in files.items() if not (out.parent / path).exists() or (out.parent / path).read_bytes() != text] + list(here - set(files)))


def main(documentation, tool, choices, write, kept=()):
    """The command of a tool that writes cases: writes them, or with --check names the files that are not as they would be."""
    parser = argparse.ArgumentParser(usage=documentation.split("usage: ")[1].split("\n")[0], description=documentation.split("\n")[0])
    parser.add_argument("--check", action="store_true")
    parser.add_argument("--all", action="store_true")
    for choice in choices:
        parser.add_argument(choice, type=lines_in)
    parser.add_argument("--per", type=int, default=490)
    parser.add_argument("out", type=Path)
    options = parser.parse_args()
    if options.check:
        found = stale(options.out, options, write, kept)
        for path in found:
            print(f"{options.out.parent / path} is not what {tool} writes")
        sys.exit(1 if found else 0)
    for line in write(options.out, options):
        print(line)


if __name__ == "__main__":
    main(__doc__, TOOL, ("--words", "--scripts"), write_all, kept=(KNOWN,))

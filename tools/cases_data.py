#!/usr/bin/env python3
"""Write the data of the program `cases`, and what it must print, from the cases of tools/cases and the examples.

usage: tools/cases_data.py [--check]

Writes crates/cases/data/texts, words, types, commands and runs, and crates/cases/stdout, where each case stands again with the
answers that are expected. With --check nothing is written: the files that are not as they would be are named, and the
status is 1 where there are some.
"""

import json
import re
import sys
from pathlib import Path

ROOT = Path(__file__).resolve().parent.parent
CASES = ROOT / "tools" / "cases"
PROGRAM = ROOT / "crates" / "cases"
ELEMENTS = {"Bytes": "bytes", "Chars": "chars", "Block": "block", "Text": "text"}


def rows(name):
    with open(CASES / name, encoding="utf-8") as lines:
        return [json.loads(line) for line in lines]


# ---- texts

def escaped(text):
    """A text or a list of bytes on one line: `%` and two digits stand for a byte that is no plain sign."""
    if isinstance(text, list):
        return "".join(chr(byte) if 32 <= byte < 127 and byte != 37 else f"%{byte:02X}" for byte in text)
    plain = re.sub(r"[\x00-\x1f%\x7f-\u00a0\u2028\u2029\ufeff]", lambda found: escaped(list(found[0].encode())), text)
    return re.sub(r" $", "%20", plain)


def parts(text):
    """A text, or a list of texts and of `[count, text]`, as parts with how often each stands."""
    whole = text if isinstance(text, list) else [text]
    return [(1, part) if isinstance(part, str) else tuple(part) for part in whole]


def text_lines(key, text):
    """The lines of a text, the first with this key."""
    if isinstance(text, dict):
        return [f"{key} {escaped(text['bytes'])}"]
    lines = []
    for number, (count, part) in enumerate(parts(text)):
        if number == 0 and count != 1:
            lines.append(key)
        lines.append(f"times {count} {escaped(part)}" if count != 1 else f"{'then' if lines else key} {escaped(part)}")
    return [line.rstrip(" ") for line in lines]


def refusal(case):
    return "= Syntax %d" % case["at"] if case["refused"] == "Syntax" else "= Limit %s %d" % (case["refused"][1], case["at"])


def canonical_lines(canonical):
    """What a script with this canonical text is answered with, a line for each statement."""
    text = "".join(part * count for count, part in parts(canonical))
    return ["= script", *(f"= {line}" for line in text.split("\n")[:-1])]


def text_cases():
    for case in rows("grammar.jsonl") + rows("texts.jsonl"):
        if "canonical" in case:
            yield text_lines("text", case["text"]), canonical_lines(case["canonical"])
        elif "refused" in case:
            yield text_lines("text", case["text"]), [refusal(case)]
        else:
            yield text_lines("reads", case["text"]), ["= script"]


# ---- words

def spaced(numbers):
    return "".join(f" {number}" for number in numbers)


def slashed(lists):
    """Pieces or chunks, each behind a slash."""
    return "".join("/" + spaced(one).strip() for one in lists)


def value(tree):
    """The value of a word as the program prints it."""
    if tree == "Unit":
        return "unit"
    kind, inner = tree[0], tree[1]
    if kind == "Pair":
        return f"pair {value(inner)}, {value(tree[2])}"
    if kind == "ListV":
        return f"list [{', '.join(map(value, inner))}]"
    if kind == "Maybe":
        return "none" if inner is None else "some " + value(inner)
    if kind in ("BytesV", "TextV"):
        return kind[:-1].lower() + spaced(inner)
    return str(inner).lower() if kind == "Bool" else f"{kind.lower()} {inner}"


def given(outputs):
    """Elements, or pieces each behind a slash."""
    return "".join(slashed([one]) if isinstance(one, list) else f" {one}" for one in outputs)


def word_case(kind, case, input_text, answers):
    end = "end" if case["end"] == "end" else "more"
    return [f"{kind} {case['text']}", f"{ELEMENTS[case['sort']]} {input_text}".rstrip(), end], answers


def gives(case):
    return "gives" + given(act["act"][1] for act in case["acts"] if act["act"][0] == "out")


def outcome(case, need=False):
    """What a run gives, its value and net, and its need where that is seen."""
    last = case["ending"]
    text = gives(case) + "; " + ("waits" if last["is"][0] != "done" else f"{value(last['is'][1])}; net {last['net']}")
    return text + (f"; need {last['need']}" if need else "")


def outside_word(case):
    if case["sort"] in ("Block", "Text"):
        pieces = slashed(case["input"])
        return word_case("pieces", case, pieces, ["= pieces: " + outcome(case, need=True)])
    answers = ["= by 1: " + outcome(case, need=True), *(f"= {cut}: " + outcome(case) for cut in ("by 2", "by 3", "whole"))]
    return word_case("sizes", case, spaced(case["input"]).strip(), answers)


def all_cuts(case):
    return word_case("cuts", case, spaced(case["input"]).strip(), ["= all cuts: " + outcome(case)])


def all_moves(case):
    return word_case("moves", case, slashed(case["chunks"]), [f"= {move}" for move in case["moves"]])


def word_cases():
    for case in rows("words.jsonl"):
        if case["word"][0] in ("Elem", "Piece", "Split"):
            yield outside_word(case)
    for case in rows("word_runs.jsonl"):
        yield {"sizes": outside_word, "cuts": all_cuts, "moves": all_moves}[case["by"]](case)


# ---- types

def refusal_line(number, name, statement, part):
    return f"conduit: refused {number} {name} at statement {statement}, part {part}"


def type_answers(case):
    """What `check` says of a script, and its sites, seals and keys."""
    if "refused" in case:
        return ["= " + refusal_line(case["refused"], case["name"], case["statement"], case["part"])]
    sites = [f"= site {use} {name}".rstrip() for use, name in case["sites"]]
    summary = f"= ok {len(case['tree'])} statements, {len(sites)} sites, bound {case['total']}"
    return [summary, *sites, f"= {case['seals']} seals, {case['keys']} keys"]


def type_cases():
    for case in rows("types.jsonl") + rows("refusals.jsonl"):
        yield text_lines("script", case["script"]), type_answers(case)


# ---- commands

def command_case(title, words, files, answers, cut=0, fails=()):
    lines = [f"case {title}", *(f"word {word}".rstrip() for word in words)]
    lines += [f"cut {cut}"] if cut else []
    for name, text in files.items():
        lines += [f"file {name}", *(text_lines("holds", text) if text != "" else [])]
        lines += [f"fail {sort} {count}" for sort, of, count in fails if of == name]
    return lines, answers


# The line of each cause, with its numbers.
LINES = {
    "Success": "",
    "Usage": "usage: conduit (run [--chunk N] [--limit N] SCRIPT | check SCRIPT | show SCRIPT)",
    "ScriptFault": "the script could not be read",
    "ScriptLimit": "the script is longer than 65536 bytes",
    "ScriptText": "the script is not UTF-8 at byte {}",
    "Syntax": "syntax error at byte {}",
    "Limit": "limit of {} passed at byte {}",
    "Refused": "refused {} {} at statement {}, part {}",
    "NotBuilt": "this form is not built yet",
    "BadText": "bad UTF-8 at offset {}",
    "BadHex": "bad base16 at offset {}",
    "BadBase64": "bad base64 at offset {}",
    "AcquireFault": "open failed at site {}",
    "ReadFault": "read failed at site {}",
    "WriteFault": "write failed at site {}",
    "CloseFault": "close failed at site {}",
    "TooLong": "site {} is longer than the limit",
    "NoMemory": "out of memory",
}


def line_of(cause):
    """What standard error gets under a cause, which is a name and its numbers and words."""
    name, *told = cause
    return f"conduit: {LINES[name].format(*told)}\n" if LINES[name] else ""


def outcome_lines(case):
    line = line_of(case["cause"]).rstrip("\n")
    return [f"= status {case['status']}, said {case.get('said', 'Whole')}", f"= cause {line}"]


def answers_of(case):
    calls = "".join(f" {call}," for call in case["calls"])
    errors = case.get("errors", line_of(case["cause"]))
    return [
        *outcome_lines(case), f"= failed {calls.count(' failed,')}", f"= calls{calls}",
        f"= out {escaped(list(case['out'].encode()))}", f"= errors {escaped(list(errors.encode()))}",
    ]


def example_cases():
    """The scripts of examples/ and their canonical texts, which are shown as these."""
    for shown in sorted((ROOT / "examples" / "shown").glob("*.cdt")):
        canonical = shown.read_text(encoding="utf-8")
        script = (ROOT / "examples" / shown.name).read_text(encoding="utf-8")
        for text, title in ((script, f"show examples/{shown.name}"), (canonical, f"show examples/shown/{shown.name}")):
            case = {"cause": ["Success"], "status": 0, "fails": [], "calls": ["open s", "end", "close"], "out": canonical}
            yield command_case(title, ["show", "s"], {"s": text, "<stdout>": ""}, answers_of(case), 7)


def command_cases():
    for case in rows("commands.jsonl"):
        for cut in case["cuts"]:
            title = case["title"] + (f", cut by {cut}" if cut else "")
            yield command_case(title, case["words"], case["files"], answers_of(case), cut, case["fails"])
    yield from example_cases()


# ---- runs

# What is built of the words, operators and statements.
BUILT = {
    "passE", "takeE", "takeWhileE", "filterE", "mapE", "repeatE", "dropE", "dropWhileE", "headE", "peekE", "lastE",
    "lengthE", "sumE", "allE", "anyE", "nullE", "collectE", "sinkNull", "pass", "take", "takeWhile", "filter", "map",
    "repeat", "intersperse", "drop", "dropWhile", "head", "peek", "last", "length", "null", "collect", "lines", "split",
    "exact", "chunksOf", "flat", "unlines", "bytes", "text", "blocks", "texts", "replicate", "range", "sourceFile",
    "stdin", "sinkFile", "stdout", "mark", "chain |", "sequence", "run", "hold", "release",
}


def run_case(title, words, before, fails, cause, status, journal, after, cut):
    """A run, with what is there before and, where outputs are shown, what is there after it; None is no file."""
    lines, _ = command_case(title, words, before, [], cut, fails)
    where = next(number for number, line in enumerate(lines) if line.startswith("file "))
    lines[where:where] = [f"shows {name}" for name in after]
    shown = [f"= no {name}" if held is None else f"= {name} holds {escaped(held)}" for name, held in after.items()]
    answers = outcome_lines({"cause": cause, "status": status})
    return lines, answers + shown + [f"= {line}" for line in journal]


def held(text):
    return text["bytes"] if "bytes" in text else list(text["text"].encode())


def outside_runs():
    for case in rows("runs.jsonl"):
        if not set(case["uses"]) <= BUILT:
            continue
        fails = [fail for fail in case["fails"] if f'"{fail[1]}"' in case["script"] or fail[1].startswith("<")]
        before = {"s": case["script"]}
        before |= {name: {"bytes": held(text)} for name, text in case["files"].items()}
        before |= {"<stdin>": {"bytes": held(case["stdin"])}, "<stdout>": ""}
        before |= {name: "" for _, name, _ in fails if name not in before}
        after = {}
        if case["status"] == 0:
            after = {name: held(text) for name, text in case["files"].items()}
            after |= {name: held(text) for name, text in case["written"].items()} | {name: None for name in case["gone"]}
            after["<stdout>"] = held(case["out"])
        # which read or write is the k-th depends on the cuts
        counted = any(sort in ("read", "write") for sort, _, _ in fails)
        for cut in (0,) if counted else (0, 1, 2, 3):
            yield run_case(
                f"run {case['seed']}" + (f", cut by {cut}" if cut else ""), case["words"], before, fails, case["cause"],
                case["status"], case["journal"], after, cut)


def is_built(tree):
    """Whether a pipe is built."""
    kind, *inner = tree
    if kind == "Word":
        return inner[0][0] in ("Elem", "Piece", "Split", "Source", "Sink")
    if kind == "Chain":
        return inner[0] == "Plain" and all(map(is_built, inner[1]))
    if kind == "Sequence":
        return all(map(is_built, inner[0]))
    return kind == "Mark" and is_built(inner[1])


def sites_of(tree):
    """The sites of a pipe in their order, each with its use and its name."""
    kind, *inner = tree
    if kind == "Word":
        word = inner[0]
        if word[0] == "Source" and word[1] == "Stdin":
            return [("reads", "<stdin>")]
        if word[0] == "Source":
            return [("reads", word[1][1])] if word[1][0] == "SourceFile" else []
        if word[0] == "Sink":
            return [("writes", "<stdout>" if word[1] == "Stdout" else word[1][1])]
        return []
    if kind == "Mark":
        return [("marks", inner[0]), *sites_of(inner[1])]
    return [site for part in inner[-1] for site in sites_of(part)]


def script_run(case, run):
    """What a run of a script is over files that hold just what is seen, or None where no files do."""
    statements = [("marks", one[2]) if one[0] == "Hold" else one for one in case["tree"]]
    sites = [(None, "<stdout>")]
    for one in statements:
        sites += sites_of(one[1]) if one[0] == "Run" else [one] if one[0] == "marks" else []
    before, fails = {"s": case["script"], "<stdin>": "", "<stdout>": ""}, []
    for number, seen in run["seen"].items():
        name = sites[int(number)][1]
        if seen["mark"] == "More" or before.get(name, "") not in ("", {"bytes": seen["bytes"]}):
            return None
        before[name] = {"bytes": seen["bytes"]}
        if seen["mark"] == "Bad":
            fails.append(["read", name, 2 if seen["bytes"] else 1])
    if run["end"] != "done" and run["end"][1][0] != "ReadBad":
        return None
    after = {name: [] for use, name in sites if use == "writes"} | {"<stdout>": []}
    journal, standing = [], []
    for kind, site, *told in run["effects"]:
        if kind == "put":
            after[sites[site][1]] += told[0]
        elif kind == "open":
            journal.append(f"open {site}")
            standing.append(site)
        else:
            journal.append(f"close {site} early")
            standing.remove(site)
    journal += [f"close {site} end" for site in reversed(standing)]
    opened = {int(line.split()[1]) for line in journal}
    after = {name: held for name, held in after.items() if name == "<stdout>" or any(sites[site][1] == name for site in opened)}
    after |= {name: None for use, name in sites if use == "marks"}
    if run["end"] == "done":
        return before, fails, ["Success"], 0, journal, after
    return before, fails, ["ReadFault", run["end"][1][1]], 7, journal, {}


def script_runs():
    for case in rows("scripts.jsonl"):
        if not all(one[0] in ("Hold", "Release") or one[0] == "Run" and is_built(one[1]) for one in case["tree"]):
            continue
        for number, run in enumerate(case["runs"]):
            found = script_run(case, run)
            if found:
                yield run_case(f"script {case['seed']}, run {number + 1}", ["run", "s"], *found, 0)


# ---- rows: what a pipeline calls, and what is left where one of its calls fails

class Stopped(Exception):
    """A run that has stopped, with its cause."""


class Model:
    """The calls of a row's acts, over reads and writes of at most `cut` bytes, of which those of `fails` fail.

    The acts say what is asked for and in which order; which calls these are is worked out here. What is put to a site
    waits for the next call that is no write, or for another site, and is then written as one.
    """

    def __init__(self, row, cut, fails):
        self.row, self.cut, self.fails, self.names = row, cut or 1 << 20, fails, ["<stdout>", *row["sites"]]
        self.limit = int(row["words"][2]) if "--limit" in row["words"] else None
        self.counts, self.calls, self.journal, self.standing, self.out = {}, [], [], [], ""
        self.read, self.given, self.ended = {}, {}, set()
        self.waiting, self.waits_for = "", None

    def fail(self, sort, site):
        """Counts a call, and tells whether it is one that fails."""
        name = self.names[site]
        key = sort, name, self.counts.get((sort, name), 0) + 1
        self.counts[sort, name] = key[2]
        failed = list(key) in self.fails or sort == "open" and name not in self.row["files"]
        if failed:
            self.calls.append(f"{sort} failed")
        return failed

    def acquire(self, call, site):
        self.write_out()
        if self.fail("open", site):
            raise Stopped(["AcquireFault", site])
        self.calls.append(f"{call} {self.names[site]}")
        self.journal.append(f"open {site}")
        self.standing.append(site)

    def close(self, site, when):
        self.write_out()
        self.standing.remove(site)
        failed = self.fail("close", site)
        self.calls += [] if failed else ["close"]
        self.journal.append(f"close {site} {when}" + (" failed" if failed else ""))
        if failed:
            raise Stopped(["CloseFault", site])

    def write_out(self):
        text, self.waiting = self.waiting, ""
        while text:
            if self.fail("write", self.waits_for):
                raise Stopped(["WriteFault", self.waits_for])
            self.out += text[:self.cut]
            text = text[self.cut:]

    def put(self, site, text):
        if site != self.waits_for:
            self.write_out()
        self.waiting, self.waits_for = self.waiting + text, site

    def ask(self, site):
        """One read: some bytes, which are kept, or the end, at which the file is closed."""
        self.write_out()
        given = self.given.get(site, 0)
        most = min(self.cut, 1 if given == self.limit else (self.limit or 1 << 20) - given)
        if self.fail("read", site):
            raise Stopped(["ReadFault", site])
        got = self.row["files"][self.names[site]][given:given + most]
        if not got:
            self.calls.append("end")
            self.ended.add(site)
            self.close(site, "early")
        elif given == self.limit:
            raise Stopped(["TooLong", site])
        self.read[site], self.given[site] = got, given + len(got)

    def take(self, site, count, to):
        """Takes so many bytes, or all; those that were read are put before the next read."""
        left = 1 << 20 if count is None else count
        while left and site not in self.ended:
            if not self.read.get(site):
                self.ask(site)
            part, self.read[site] = self.read[site][:left], self.read[site][left:]
            left -= len(part)
            if to is not None:
                self.put(to, part)

    def act(self, act, *told):
        if act in ("open", "mark"):
            self.acquire(act, *told)
        elif act == "close":
            self.close(*told, "early")
        else:
            getattr(self, act)(*told)

    def answer(self):
        """The row with what comes of it; all that stands is closed at the end, the last that was opened first."""
        cause = None
        try:
            for act in self.row["acts"]:
                self.act(*act)
            self.write_out()
        except Stopped as stopped:
            cause = stopped.args[0]
        for site in reversed(self.standing[:]):
            try:
                self.close(site, "end")
            except Stopped as stopped:
                cause = cause or stopped.args[0]
        cause = cause or ["Success"]
        status = {"Success": 0, "TooLong": 8}.get(cause[0], 7)
        calls = ["open s", "end", "close", *self.calls]
        return {"cause": cause, "status": status, "calls": calls, "out": self.out, "journal": self.journal}


def row_variants(row):
    """A row under each cut, and where it names no call that fails, under each with every call failing in turn."""
    given = row.get("fails", [])
    for cut in row.get("cuts", (0, 1, 2, 3)):
        model = Model(row, cut, given)
        answer = model.answer()
        if any(answer[key] != row[key] for key in answer):
            sys.exit(f"{row['title']}, cut by {cut}: {answer} is not what the row has")
        yield row["title"], cut, given, answer
        for (sort, name), count in [] if given else model.counts.items():
            for number in range(1, count + 1):
                if sort == "open" and name not in row["files"]:
                    continue
                fails = [[sort, name, number]]
                yield f"{row['title']}; {sort} {number} of {name} fails", cut, fails, Model(row, cut, fails).answer()


def row_cases():
    for row in rows("rows.jsonl"):
        variants = row_variants(row) if "acts" in row else [(row["title"], 0, [], row)]
        for title, cut, fails, answer in variants:
            title += f", cut by {cut}" if cut else ""
            yield command_case(title, row["words"], row["files"], answers_of(answer), cut, fails)


def row_runs():
    """The rows with their journals: under each cut where no call fails, and not cut where one does."""
    for row in rows("rows.jsonl"):
        for title, cut, fails, answer in row_variants(row) if "acts" in row else []:
            if cut and fails and fails != row.get("fails"):
                continue
            title += f", cut by {cut}" if cut else ""
            after = {"<stdout>": list(answer["out"].encode())}
            yield run_case(title, row["words"], row["files"], fails, answer["cause"], answer["status"], answer["journal"], after, cut)


# ---- the files

def files():
    """Each file and what it holds."""
    told = []
    tables = {
        "texts": [*text_cases()], "words": [*word_cases()], "types": [*type_cases()],
        "commands": [*command_cases(), *row_cases()], "runs": [*outside_runs(), *script_runs(), *row_runs()],
    }
    for name, cases in tables.items():
        yield PROGRAM / "data" / name, "".join("\n".join(lines) + "\n\n" for lines, _ in cases)[:-1]
        told += ["\n".join(lines + answers) + "\n\n" for lines, answers in cases]
    yield PROGRAM / "stdout", "".join(told)


def main():
    if sys.argv[1:] not in ([], ["--check"]):
        sys.exit(__doc__)
    stale = [path for path, text in files() if not path.exists() or path.read_bytes() != text.encode()]
    if sys.argv[1:]:
        for path in stale:
            print(f"{path.relative_to(ROOT)} is not what tools/cases_data.py writes")
        sys.exit(1 if stale else 0)
    for path, text in files():
        path.write_bytes(text.encode())


if __name__ == "__main__":
    main()

#!/usr/bin/env python3
"""Run the built program on the cases of this folder, and compare what it does with what they say.

usage: tests/run/run.py [PROGRAM] [CASE..]

PROGRAM is crates/conduit/out/conduit if none is given. Each case is a file cases/NAME.json, with these fields:

words     the words of the command; a list of numbers in place of a word is its bytes
files     what stands in the folder before the run, by name: a text; a list of texts and of [count, text], which stands
          so many times; or an object with "bytes" (numbers), "example" (the script of examples/ with this name),
          "directory", "mode" (octal, beside "text"), or "fifo": a text that is written in pieces of "pieces" bytes, each
          when the one before was read, and has come out where it is a "source"
stdin     a text, "closed", or the fifo's object; nothing if it is not given
stdout    what standard output gets, as a file's text; or an object: "closed", "full" (the full device), or "reader"
          with the number of bytes after which the reader closes its end
stderr    what standard error gets, nothing if it is not given; or an object: "closed", or "full" (the full device)
status    the exit status
open      how many descriptors may be open at once
left      files that are new after the run, by name; each file that was there is there still, with its bytes

A case that wants what this machine cannot give is skipped, with a reason. The last line is 'N passed, M failed'.
"""

import fcntl
import json
import os
import resource
import shutil
import subprocess
import sys
import tempfile
import termios
import threading
import time
from pathlib import Path

HERE = Path(__file__).resolve().parent
ROOT = HERE.parent.parent
PROGRAM = ROOT / "crates" / "conduit" / "out" / "conduit"
SECONDS = 60


class Skipped(Exception):
    """Why a case cannot be run here."""


def content(told):
    """The bytes of a text as a case writes it."""
    if isinstance(told, dict):
        if "example" in told:
            return (ROOT / "examples" / told["example"]).read_bytes()
        return bytes(told["bytes"]) if "bytes" in told else content(told["text"])
    parts = told if isinstance(told, list) else [told]
    return b"".join(part.encode() if isinstance(part, str) else part[1].encode() * part[0] for part in parts)


# ---- what stands there before

def make_file(path, told):
    if isinstance(told, dict) and "directory" in told:
        path.mkdir()
    elif isinstance(told, dict) and "fifo" in told:
        os.mkfifo(path)
    else:
        path.write_bytes(content(told))
        if isinstance(told, dict) and "mode" in told:
            if os.geteuid() == 0:
                raise Skipped("root may read every file")
            path.chmod(int(told["mode"], 8))


def kept(path, told):
    """Whether what was there before is there as it was."""
    if isinstance(told, dict) and "directory" in told:
        return path.is_dir()
    if isinstance(told, dict) and "fifo" in told:
        return path.is_fifo()
    if isinstance(told, dict) and "mode" in told:
        return path.is_file()
    return path.is_file() and path.read_bytes() == content(told)


# ---- a writer that waits

def unread(descriptor):
    """How many bytes of a pipe are not read yet."""
    return int.from_bytes(fcntl.ioctl(descriptor, termios.FIONREAD, bytes(4)), sys.byteorder)


def waits(done):
    """Whether this comes true in time."""
    end = time.monotonic() + SECONDS / 4
    while time.monotonic() < end:
        if done():
            return True
        time.sleep(0.001)
    return False


def write_pieces(name, opened, told, wanted, out, problems):
    """Writes a fifo or a pipe piece by piece: the next one once the last was read and, of a source, what is due stands in
    `out`."""
    text = content(told["fifo"])
    descriptor = opened()
    try:
        for start in range(0, len(text), told["pieces"]):
            end = min(start + told["pieces"], len(text))
            if "source" in told and start >= len(wanted):
                return  # (nobody reads on)
            os.write(descriptor, text[start:end])
            due = wanted[:end] if "source" in told else b""
            if not waits(lambda: unread(descriptor) == 0) or not waits(lambda: bytes(out[: len(due)]) == due):
                problems.append(f"after {end} bytes of {name} standard output has {bytes(out)!r}")
                return
    except BrokenPipeError:
        pass
    finally:
        os.close(descriptor)


# ---- one run

def read_all(stream, out, most):
    """Reads a pipe to its end, or to so many bytes, and closes it."""
    while most is None or len(out) < most:
        some = os.read(stream, 65536 if most is None else most - len(out))
        if not some:
            break
        out += some
    os.close(stream)


def word(told):
    return bytes(told) if isinstance(told, list) else told.encode()


def prepare(case):
    """What the child does before the program: it closes streams and takes its limit."""
    def prepared():
        if "open" in case:
            resource.setrlimit(resource.RLIMIT_NOFILE, (case["open"], case["open"]))
        if case.get("stdin") == "closed":
            os.close(0)
        if isinstance(case["stdout"], dict) and "closed" in case["stdout"]:
            os.close(1)
        if isinstance(case.get("stderr"), dict):
            os.close(2)
            if "full" in case["stderr"]:
                os.dup2(os.open("/dev/full", os.O_WRONLY), 2)
    return prepared


def run(program, case, folder):
    """Runs a case in a folder: the status, both outputs, and what went wrong on the way."""
    problems, out = [], bytearray()
    stdout = case["stdout"] if isinstance(case["stdout"], dict) else {}
    wanted = b"" if stdout else content(case["stdout"])
    for name, told in case["files"].items():
        make_file(folder / name, told)
    pieces = [
        (name, lambda path=folder / name: os.open(path, os.O_WRONLY), told)
        for name, told in case["files"].items() if isinstance(told, dict) and "fifo" in told
    ]
    reading, writing = os.pipe()
    sink = os.open("/dev/full", os.O_WRONLY) if "full" in stdout else writing
    given = case.get("stdin", "")
    source = subprocess.DEVNULL if given == "closed" else subprocess.PIPE
    if isinstance(given, dict):
        source, feed = os.pipe()
        pieces.append(("standard input", lambda: feed, given))
    threads = [threading.Thread(target=write_pieces, args=(*one, wanted, out, problems), daemon=True) for one in pieces]
    child = subprocess.Popen(
        [os.fsencode(program), *map(word, case["words"])], cwd=folder, stdin=source, stdout=sink, stderr=subprocess.PIPE,
        preexec_fn=prepare(case), env={"PATH": "/usr/bin:/bin", "LANG": "C.UTF-8"},
    )
    os.close(writing)
    if sink != writing:
        os.close(sink)
    if isinstance(given, dict):
        os.close(source)
    reader = threading.Thread(target=read_all, args=(reading, out, stdout.get("reader")), daemon=True)
    for thread in [reader, *threads]:
        thread.start()
    try:
        _, errors = child.communicate(content(given) if source == subprocess.PIPE else None, timeout=SECONDS)
    except subprocess.TimeoutExpired:
        child.kill()
        problems.append(f"it had not ended after {SECONDS} seconds")
        _, errors = child.communicate()
    for thread in [reader, *threads]:
        thread.join(SECONDS / 4)
    return child.returncode, bytes(out), errors, problems


def short(text):
    return repr(text if len(text) <= 200 else text[:100] + b" .. " + text[-80:]) + f" ({len(text)} bytes)"


def compare(program, case, folder):
    """What a case's run did that it was not to do."""
    status, out, errors, problems = run(program, case, folder)
    if status != case["status"]:
        problems.append(f"status {status}, and not {case['status']}")
    stdout = case["stdout"] if isinstance(case["stdout"], dict) else {"text": case["stdout"]}
    wanted = content(stdout["text"]) if "text" in stdout else b""
    if "reader" not in stdout and out != wanted:
        problems.append(f"standard output has {short(out)}, and not {short(wanted)}")
    told = b"" if isinstance(case.get("stderr"), dict) else content(case.get("stderr", ""))
    if errors != told:
        problems.append(f"standard error has {short(errors)}, and not {short(told)}")
    for name, told in case["files"].items():
        if not kept(folder / name, told):
            problems.append(f"{name} is not as it was")
    left = {path.name for path in folder.iterdir()} - set(case["files"])
    for name in sorted(left | set(case.get("left", {}))):
        told = case.get("left", {}).get(name)
        if told is None or name not in left or (folder / name).read_bytes() != content(told):
            problems.append(f"{name} is left, and is not to be" if told is None else f"{name} is not left as it is to be")
    return problems


# ---- what strace sees

def trace(program, folder):
    """The calls of the first path that open and close files."""
    if not shutil.which("strace"):
        raise Skipped("there is no strace")
    (folder / "s").write_text('run sourceFile "a" | takeE 5 | stdout;\n')
    (folder / "a").write_text("hello world")
    log = folder / "log"
    words = ["strace", "-o", log, "-e", "trace=open,openat,creat,close,dup,dup2,dup3,fcntl,socket,pipe,pipe2", program, "run", "s"]
    ran = subprocess.run(words, cwd=folder, capture_output=True)
    calls = log.read_text().splitlines() if log.exists() else []
    if not any("openat" in call or "open(" in call for call in calls):
        raise Skipped(f"strace does not work here: {ran.stderr.decode(errors='replace').strip()[:80]}")
    return calls


def descriptors(program, folder):
    """What is wrong with the descriptors of the first path, and the order in which its files are opened and closed."""
    calls, names, told = trace(program, folder), {}, []
    for call in calls:
        name, _, rest = call.partition("(")
        answer = rest.rpartition("= ")[2].split(" ")[0]
        if name in ("open", "openat") and answer.isdigit():
            names[answer] = rest.split('"')[1]
            told.append("open " + names[answer])
        elif name == "close" and answer == "0":
            told.append("close " + names.pop(rest.partition(")")[0], "another"))
    ours = [it for it in told if it.split()[1] in ("s", "a", "another")]
    problems = [] if ours == ["open s", "close s", "open a", "close a"] else [f"files are opened and closed so: {ours}"]
    if told[-7:] != [*ours, *["close /dev/null"] * 3]:
        problems.append(f"the null device is not held to the end: {told}")
    return problems


# ---- a file that changes

def truncated(program, folder):
    """What is wrong with a run whose source is cut off while it is read. Any answer will do, and nothing stays behind."""
    (folder / "s").write_text('run mark "busy" { sourceFile "a" } | stdout;\n')
    (folder / "a").write_bytes(b"conduit, " * 1000000)
    started = subprocess.Popen([program, "run", "s"], cwd=folder, stdout=subprocess.PIPE, stderr=subprocess.DEVNULL)
    started.stdout.read(100000)
    os.truncate(folder / "a", 200000)
    started.communicate(timeout=SECONDS)
    problems = [] if started.returncode in (0, 7) else [f"status {started.returncode}"]
    if (folder / "busy").exists():
        problems.append("the mark is left")
    return problems


def cases(names):
    """Each case's name and check."""
    for path in sorted((HERE / "cases").glob("*.json")):
        if not names or path.stem in names:
            case = json.loads(path.read_text(encoding="utf-8"))
            yield path.stem, lambda program, folder, case=case: compare(program, case, folder)
    if not names or "descriptors" in names:
        yield "descriptors", descriptors
    if not names or "truncated" in names:
        yield "truncated", truncated


def main():
    program = Path(sys.argv[1] if len(sys.argv) > 1 else PROGRAM).resolve()
    passed, failed, skipped = 0, 0, 0
    for name, check in cases(sys.argv[2:]):
        with tempfile.TemporaryDirectory(prefix="conduit-run-") as folder:
            try:
                problems = check(program, Path(folder))
            except Skipped as reason:
                skipped += 1
                print(f"tests/run: {name}: skipped, for {reason}")
                continue
        passed, failed = passed + (not problems), failed + bool(problems)
        for problem in problems:
            print(f"tests/run: {name}: {problem}")
    print(f"{passed} passed, {failed} failed" + (f", {skipped} skipped" if skipped else ""))
    sys.exit(1 if failed else 0)


if __name__ == "__main__":
    main()

#!/usr/bin/env python3
"""Runs the built program beside wabt's and binaryen's tools on one module, each in turn, and tells the best of each.

beside.py FILE [ROUNDS] [--text | --deep]

FILE is a binary. It takes crates/wcanon/out/wcanon, and of wasm-strip, wasm-validate (Debian's package wabt) and
wasm-opt (binaryen) those that are installed, and `true`, which does nothing. With --text it takes wat2wasm and wasm2wat
(wabt), wasm-as and wasm-dis (binaryen) in their place, in four parts: the flat text of the module, which wasm2wat
writes, to bytes; the same with its expressions folded; the module to text; and the comparison of the module with its
canonical bytes, beside the pipe of wasm2wat and wat2wasm over the one and over the other, and `cmp`. With --deep, for a
module of deep nesting, whose lines wasm2wat indents, the program's own text is the flat one, and wasm2wat isn't run.

Each run is a process of its own, which reads files and writes its output over that of its run before, a file that no
other program writes: what that left is let go at its cost. For each program: milliseconds by the clock and of the
processor (user and system), each the least of the rounds; the median of the processor's; millions of input bytes a
second of the processor's least; peak memory as a multiple of the input, for small files that of this script; and the
processor's least as a multiple of that of the first of its part. A program that fails is told as such: wasm-as and
wasm-dis don't take every module.
"""

import argparse
import os
import shutil
import statistics
import subprocess
import tempfile
import time

PROGRAM = os.path.join(os.path.dirname(os.path.abspath(__file__)), "..", "crates", "wcanon", "out", "wcanon")


def bytes_of(path, out):
    """What reads a binary and judges it or writes one, by its name."""
    return {
        "wcanon binary": [PROGRAM, "binary", path, "-o", out + ".wcanon"],
        "wcanon check": [PROGRAM, "check", path],
        "wasm-strip": ["wasm-strip", path, "-o", out + ".strip"],
        "wasm-validate": ["wasm-validate", path],
        "wasm-opt -O0": ["wasm-opt", "--all-features", "-O0", path, "-o", out + ".opt"],
        "true": ["true"],
    }


def text_to_bytes(path, out):
    return {
        "wcanon binary": [PROGRAM, "binary", path, "-o", out + ".wcanon"],
        "wat2wasm": ["wat2wasm", "--no-check", path, "-o", out + ".wat2wasm"],
        "wasm-as": ["wasm-as", "--all-features", path, "-o", out + ".as"],
    }


def bytes_to_text(path, out):
    return {
        "wcanon text": [PROGRAM, "text", path, "-o", out + ".wcanon"],
        "wasm2wat": ["wasm2wat", "--no-check", path, "-o", out + ".wasm2wat"],
        "wasm-dis": ["wasm-dis", "--all-features", path, "-o", out + ".dis"],
    }


def comparison(path, canonical, out):
    one, other = ("wasm2wat --no-check $%d | wat2wasm --no-check - -o $%d" % it for it in ((1, 3), (2, 4)))
    return {
        "wcanon compare": [PROGRAM, "compare", path, canonical],
        "wasm2wat | wat2wasm": ["sh", "-c", f"{one} && {other} && cmp $3 $4", "sh", path, canonical, out, out + "2"],
    }


def text_parts(path, folder, is_deep):
    """The four parts of text: a name, the file whose size counts, and what is run."""
    out, canonical, flat, folded = (f"{folder}/{name}" for name in ("out", "canonical.wasm", "flat.wat", "folded.wat"))
    subprocess.run([PROGRAM, "binary", path, "-o", canonical], check=True)
    if is_deep:
        subprocess.run([PROGRAM, "text", path, "-o", flat], check=True)
        return [
            ("flat text", flat, text_to_bytes(flat, out)),
            ("to text", path, {"wcanon text": [PROGRAM, "text", path, "-o", out]}),
            ("compare", path, {"wcanon compare": [PROGRAM, "compare", path, canonical]}),
        ]
    stripped = f"{folder}/stripped.wasm"
    subprocess.run(["wasm-strip", path, "-o", stripped], check=True)
    subprocess.run(["wasm2wat", "--no-check", stripped, "-o", flat], check=True)
    subprocess.run(["wasm2wat", "--no-check", "--fold-exprs", stripped, "-o", folded], check=True)
    return [
        ("flat text", flat, text_to_bytes(flat, out)),
        ("folded text", folded, text_to_bytes(folded, out)),
        ("to text", path, bytes_to_text(path, out)),
        ("compare", path, comparison(path, canonical, out)),
    ]


def run(words):
    """Milliseconds by the clock, milliseconds of the processor, and peak memory in bytes; none if it fails."""
    nowhere = [(os.POSIX_SPAWN_OPEN, stream, os.devnull, os.O_WRONLY, 0) for stream in (1, 2)]
    start = time.monotonic()
    # A child that is forked would pay for this script's pages
    child = os.posix_spawnp(words[0], words, os.environ, file_actions=nowhere)
    _, status, used = os.wait4(child, 0)
    if status != 0:
        return None
    return (time.monotonic() - start) * 1e3, (used.ru_utime + used.ru_stime) * 1e3, used.ru_maxrss * 1024


def tell(part, path, programs, rounds):
    """Runs the programs of a part that are installed, each in turn, and prints a line of each."""
    programs = {name: words for name, words in programs.items() if shutil.which(words[0])}
    measured = {name: [] for name in programs}
    for _ in range(rounds):
        for name, words in programs.items():
            measured[name].append(run(words))
    size = os.path.getsize(path)
    print(f"{part}: {size} bytes, {rounds} rounds, each program in turn")
    print(f"{'':20}{'clock ms':>10}{'processor ms':>14}{'median':>10}{'MB/s':>8}{'memory':>9}{'ratio':>8}")
    base = None
    for name, rows in measured.items():
        if None in rows:
            print(f"{name:20}fails")
            continue
        clock, processor, memory = map(min, zip(*rows))
        base = base or processor
        median = statistics.median(row[1] for row in rows)
        rate = size / 1e3 / max(processor, 1e-9)
        spent = f"{clock:10.2f}{processor:14.2f}{median:10.2f}"
        print(f"{name:20}{spent}{rate:8.1f}{memory / size:8.1f}x{processor / base:8.2f}")


def main():
    reader = argparse.ArgumentParser(description=__doc__, formatter_class=argparse.RawDescriptionHelpFormatter)
    reader.add_argument("file")
    reader.add_argument("rounds", nargs="?", type=int, default=5)
    reader.add_argument("--text", action="store_true")
    reader.add_argument("--deep", action="store_true")
    given = reader.parse_args()
    with tempfile.TemporaryDirectory() as folder:
        if given.text or given.deep:
            parts = text_parts(given.file, folder, given.deep)
        else:
            parts = [("binary", given.file, bytes_of(given.file, os.path.join(folder, "out.wasm")))]
        for part, path, programs in parts:
            tell(part, path, programs, given.rounds)


if __name__ == "__main__":
    main()

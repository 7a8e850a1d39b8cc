#!/usr/bin/env python3
"""Runs two programs in turns, and says how they compare.

    bench/plain/beside.py [--rounds N] [--input FILE] [--rates] -- PROGRAM WORD .. -- OTHER WORD ..

Each round runs the one and then the other, with FILE as standard input where one is named. Of each program the best and the
median of the rounds are printed: the time by the clock on the wall, the time of the processor (user and system), and the most
memory that was resident; behind them the ratios, the first program's figure over the other's. Both have to end with status 0
and print the same.

With --rates what is compared is what the programs print themselves: lines `N of N entries taken (SUM): X million entries/s, ..`,
of which all but the rates have to be the same. The rates are printed for each number of entries, the ratio being the first
program's rate over the other's. The load of the machine is printed at the beginning and at the end.

For example, with chorus built, and checker and load compiled as their heads say (the proved program that prints such rates is
`bench_parts checker` of commit 69363f89):

    bench/plain/beside.py --rates -- bench_parts checker -- ./checker time
    ./checker report > report
    bench/plain/beside.py --input report -- crates/chorus/out/chorus audit 8 1 -- ./checker audit 8 1
    bench/plain/beside.py -- crates/chorus/out/chorus load 7 65536 -- ./load 7 65536
"""

import os
import re
import statistics
import sys
import tempfile
import time

RATE = re.compile(r"(\d+) of (\d+) entries taken \((\d+)\): ([\d.]+) million entries/s")


def run(words, source):
    """Seconds by the clock, seconds of the processor, megabytes, and what was printed."""
    with tempfile.TemporaryFile() as sink:
        start = time.monotonic()
        child = os.fork()
        if child == 0:
            os.dup2(os.open(source, os.O_RDONLY), 0)
            os.dup2(sink.fileno(), 1)
            try:
                os.execvp(words[0], words)
            except OSError:
                os._exit(127)
        _, status, usage = os.wait4(child, 0)
        seconds = time.monotonic() - start
        if status != 0:
            sys.exit(f"{' '.join(words)}: status {status}")
        sink.seek(0)
        return seconds, usage.ru_utime + usage.ru_stime, usage.ru_maxrss / 1024, sink.read().decode()


def rates_in(text):
    """The rate of each journal, by its number of entries and its sum."""
    rates = {}
    for line in text.splitlines():
        found = RATE.match(line)
        if not found or found[1] != found[2]:
            sys.exit(f"no rate: {line}")
        rates[int(found[2]), int(found[3])] = float(found[4])
    return rates


def compare(name, figures, best, places):
    """Prints the best and the median of both programs' figures, and the ratios of the first to the other."""
    ours, other = figures
    bests = best(ours), best(other)
    medians = statistics.median(ours), statistics.median(other)
    for word, (one, two) in ("best", bests), ("median", medians):
        ratio = one / two if two else float("nan")
        print(f"{name:>20} {word:>7} {one:10.{places}f} {two:10.{places}f}   ratio {ratio:.2f}")


def load():
    return f"load {' '.join(f'{number:.2f}' for number in os.getloadavg())}"


def main(words):
    rounds, source, rates = 5, os.devnull, False
    while words and words[0] != "--":
        word = words.pop(0)
        if word == "--rounds":
            rounds = int(words.pop(0))
        elif word == "--input":
            source = words.pop(0)
        elif word == "--rates":
            rates = True
        else:
            sys.exit(__doc__)
    if words.count("--") != 2:
        sys.exit(__doc__)
    middle = words.index("--", 1)
    programs = words[1:middle], words[middle + 1 :]
    print(f"{rounds} rounds in turns: {' '.join(programs[0])}, beside {' '.join(programs[1])}")
    print(f"before: {load()}")
    runs = [[], []]
    for _ in range(rounds):
        for program, done in zip(programs, runs):
            done.append(run(program, source))
    if rates:
        told = [[rates_in(one[3]) for one in done] for done in runs]
        if len({tuple(one) for done in told for one in done}) != 1 or not told[0][0]:
            sys.exit("the programs judged other journals")
        for many, total in told[0][0]:
            figures = [[one[many, total] for one in done] for done in told]
            compare(f"{many} entries", figures, max, 2)
    elif len({one[3] for done in runs for one in done}) != 1:
        sys.exit("the programs print something else")
    for name, at, places in ("seconds", 0, 3), ("of the processor", 1, 3), ("MB", 2, 1):
        compare(name, [[one[at] for one in done] for done in runs], min, places)
    print(f"behind: {load()}")


main(sys.argv[1:])

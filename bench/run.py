#!/usr/bin/env python3
"""Measures the product's programs against the same in plain Rust, side by side on one machine.

    python3 bench/run.py [--quick] [--only front|offers]

From the repository's top. It builds what is missing, makes the logs in a temporary folder, runs both programs in turn on the
same input, compares what they print byte by byte, and prints tables in Markdown, and at the end which goals are met.

    --quick           logs of 10 MB alone, and fewer runs
    --only front      the logs alone
    --only offers     the archive alone

It wants Linux, Python 3.9, cargo, `setsid` of util-linux, and where the product is not built yet the Rattle toolchain, `rt`.
Let the machine do nothing else meanwhile: whatever it does makes the figures worse. The status is 0, also where a goal is
missed; it is 1 where the two print different things, or where something cannot be built or run.
"""
import argparse
import ctypes
import itertools
import os
import pathlib
import random
import shutil
import subprocess
import sys
import tempfile
import time
from dataclasses import dataclass

TOP = pathlib.Path(__file__).resolve().parent.parent
BENCH = TOP / "bench"

BLOCK = 512
DISTINCT_BLOCKS = 4_000
TRIALS_A_BLOCK = 35

# The least life of each of the 17 boxes of lives, and one past the longest life.
LIVES = (1, 2, 3, 4, 6, 9, 13, 19, 28, 42, 63, 94, 141, 211, 316, 474, 711, 1001)

# Sizes of logs by name; a log is the whole blocks that fit.
SIZES = {"10 MB": 10_000_000, "100 MB": 100_000_000}

# How many offers a run makes, by objectives and rows. The numbers are such that a run of the plain program takes a quarter of
# a second or so, on a machine of 2.5 GHz.
OFFERS = {
    (2, 32): 2_400_000,
    (2, 512): 240_000,
    (2, 4096): 200_000,
    (4, 32): 1_300_000,
    (4, 512): 100_000,
    (4, 4096): 20_000,
    (6, 32): 1_000_000,
    (6, 512): 100_000,
    (6, 4096): 20_000,
}

# After so many offers a row, all rows hold members, or all boxes are held: over two objectives there are 1,024 that no other
# dominates.
FILLING = 2

# How often each program runs on an input. The least times count, since all that disturbs a run makes it longer.
ROUNDS = 7
QUICK_ROUNDS = 3

# The goals.
LEAST_RATIO = 1.0
MOST_MEMORY = 8.0
MOST_FACTOR = 1.2

# How far figures that are to be the same may be apart: megabytes of two peaks, and the growth of a cost by members.
SAME_MEMORY = 0.25
SAME_COST = 1.25

PR_SET_CHILD_SUBREAPER = 36


class Failed(Exception):
    """Why nothing can be measured."""


@dataclass(frozen=True)
class Pair:
    """One task's two programs."""

    name: str

    @property
    def plain(self):
        return BENCH / "target" / "release" / self.name

    @property
    def crate(self):
        return TOP / "crates" / self.name

    @property
    def product(self):
        return self.crate / "out" / self.name


FRONT = Pair("front")
OFFERING = Pair("offers")


@dataclass(frozen=True)
class Cost:
    """What a run takes: seconds of processor time and of the clock, and megabytes at the peak."""

    processor: float
    wall: float
    memory: float

    def best(self, other):
        """The least times of both, and the greater peak."""
        return Cost(
            min(self.processor, other.processor),
            min(self.wall, other.wall),
            max(self.memory, other.memory),
        )


@dataclass(frozen=True)
class Measured:
    """What both programs took on one input, and what they printed."""

    plain: Cost
    product: Cost
    printed: bytes


@dataclass(frozen=True)
class LogRow:
    """One line of the table of logs."""

    kind: str
    size: str
    members: int
    measured: Measured

    @property
    def ratio(self):
        return self.measured.plain.processor / self.measured.product.processor

    @property
    def memory_ratio(self):
        return self.measured.plain.memory / self.measured.product.memory

    @property
    def name(self):
        return f"{self.kind} {self.size}"


@dataclass(frozen=True)
class OfferRow:
    """One line of the table of offers; times are in nanoseconds an offer."""

    objectives: int
    rows: int
    members: int
    plain: float
    product: float

    @property
    def factor(self):
        return self.product / self.plain

    @property
    def name(self):
        return f"{self.objectives} objectives over {self.rows} rows"


# Building


def say(text):
    """Tells on standard error how far things are."""
    print(text, file=sys.stderr, flush=True)


def build_plain():
    say("building the plain programs: cargo build --release in bench")
    run_tool(["cargo", "build", "--release", "--quiet"], BENCH)


def build_product(pair):
    """Proves and builds a crate of the product where its program is missing, and tells where that is an old one."""
    if not pair.product.exists():
        say(f"proving and building crates/{pair.name}, from nothing in ten minutes or so: rt run in crates/{pair.name}")
        run_tool(["rt", "run"], pair.crate, given=pair.crate / "stdin")
    built = pair.product.stat().st_mtime
    for newer in [file for file in sources_of(pair.name) if file.stat().st_mtime > built][:1]:
        say(
            f"note: {newer.relative_to(TOP)} is newer than {pair.product.relative_to(TOP)}, which is measured as it is;"
            f" rt run in crates/{pair.name} builds it anew"
        )


def sources_of(name):
    """The code that a crate of the product is built from, with that of the crates below it."""
    listed = [line.partition(":") for line in (TOP / "crates.txt").read_text().splitlines() if not line.startswith("#")]
    below = {crate.strip(): rest.split() for crate, _, rest in listed}
    # a crate that is not listed is the toolchain's
    wanted, seen = [name], set()
    while wanted:
        crate = wanted.pop()
        if crate in below and crate not in seen:
            seen.add(crate)
            wanted.extend(below[crate])
    return [file for crate in sorted(seen) for file in sorted((TOP / "crates" / crate / "src").rglob("*.rt"))]


def run_tool(command, folder, given=None):
    if shutil.which(command[0]) is None:
        raise Failed(f"{command[0]} is not there")
    with open(given or os.devnull, "rb") as standard_input:
        done = subprocess.run(command, cwd=folder, stdin=standard_input, stdout=subprocess.PIPE, stderr=subprocess.STDOUT)
    if done.returncode != 0:
        raise Failed(f"{' '.join(command)} in {folder} failed:\n{done.stdout.decode(errors='replace')[-2000:]}")


# Measuring


def adopt_orphans():
    """Makes this process the parent of processes whose own parent has ended."""
    libc = ctypes.CDLL(None, use_errno=True)
    if libc.prctl(PR_SET_CHILD_SUBREAPER, 1, 0, 0, 0) != 0:
        raise Failed(f"this process cannot wait for orphans: {os.strerror(ctypes.get_errno())}")


def run_once(program, given, printed):
    """Runs a program on a file, and tells what it took.

    The peak of a process that Python starts is at least Python's own: it is counted from before the program is loaded. So
    `setsid --fork`, which is small, starts the program and ends, and this process waits for the orphan.
    """
    with open(given, "rb") as standard_input, open(printed, "wb") as standard_output:
        begun = time.monotonic()
        subprocess.run(["setsid", "--fork", program], stdin=standard_input, stdout=standard_output, check=True)
        _, status, usage = os.wait4(-1, 0)
        wall = time.monotonic() - begun
    if status != 0:
        raise Failed(f"{program} on {given} ended with status {os.waitstatus_to_exitcode(status)}")
    return Cost(usage.ru_utime + usage.ru_stime, wall, usage.ru_maxrss * 1024 / 1_000_000)


def measure(pair, given, folder, rounds):
    """Runs both programs in turn on the same file, and compares what they print."""
    printed_plain, printed_product = folder / "plain.out", folder / "product.out"
    plain = product = Cost(float("inf"), float("inf"), 0.0)
    for _ in range(rounds):
        plain = plain.best(run_once(pair.plain, given, printed_plain))
        product = product.best(run_once(pair.product, given, printed_product))
        compare(pair, printed_plain.read_bytes(), printed_product.read_bytes())
    return Measured(plain, product, printed_plain.read_bytes())


def compare(pair, plain, product):
    """Fails where the two printed different things, and tells the first line at which they part."""
    if plain == product:
        return
    lines = itertools.zip_longest(plain.split(b"\n"), product.split(b"\n"))
    number, (of_plain, of_product) = next((at, both) for at, both in enumerate(lines, 1) if both[0] != both[1])
    raise Failed(f"crates/{pair.name} prints as line {number} {of_product!r}, and the plain program {of_plain!r}")


# Logs


def few_trial(chance):
    """Anywhere, and some past the ends: the best boxes are held soon, by a member or two."""
    return chance.randrange(10_500), chance.randrange(1, 1_051)


def many_trial(chance):
    """Along a front: the longer the life, the longer the delay. Each of the 17 boxes of lives holds a member."""
    life_box = chance.randrange(17)
    best_delay = 500 * life_box
    life = chance.randrange(LIVES[life_box], LIVES[life_box + 1])
    return best_delay + chance.randrange(1_000), life


KINDS = {"few": few_trial, "many": many_trial}


def trial_bytes(tag, delay, life):
    return bytes([1, 12]) + b"".join(number.to_bytes(4, "big") for number in (tag, delay, life))


def sealed(number, trials):
    """A block of these trials, with its checksums."""
    header = bytes([1, len(trials), 2, 0]) + number.to_bytes(4, "big")
    body = (header + b"".join(trials)).ljust(BLOCK - 4, b"\0")
    sums = list(itertools.accumulate(body))
    checks = sums[-1] % 65_536, sum(sums) % 65_536
    return body + b"".join(check.to_bytes(2, "big") for check in checks)


def distinct_blocks(kind, chance):
    tags = itertools.count(1)
    return [
        sealed(number, [trial_bytes(next(tags), *KINDS[kind](chance)) for _ in range(TRIALS_A_BLOCK)])
        for number in range(DISTINCT_BLOCKS)
    ]


def make_log(kind, size, path):
    """Writes a log of blocks drawn from a few thousand. It is the same in every run, on every machine."""
    chance = random.Random(7)
    blocks = distinct_blocks(kind, chance)
    with open(path, "wb") as log:
        for _ in range(size // BLOCK):
            log.write(blocks[chance.randrange(DISTINCT_BLOCKS)])


def measure_log(kind, size, folder, rounds):
    path = folder / "log"
    say(f"log: {kind}, {size}")
    make_log(kind, SIZES[size], path)
    measured = measure(FRONT, path, folder, rounds)
    return LogRow(kind, size, int(measured.printed.split()[-1]), measured)


def measure_logs(folder, quick):
    sizes = list(SIZES)[:1] if quick else list(SIZES)
    return [measure_log(kind, size, folder, QUICK_ROUNDS if quick else ROUNDS) for kind in KINDS for size in sizes]


# Offers


def measure_offers_of(objectives, rows, offers, folder, rounds):
    path = folder / "asked"
    path.write_text(f"{objectives} {rows} {offers}\n")
    return measure(OFFERING, path, folder, rounds)


def measure_offers_over(objectives, rows, folder, rounds):
    """The cost of an offer once the rows are filled: many offers, less those that fill the rows."""
    say(f"offers: {objectives} objectives, {rows} rows")
    filling, offers = FILLING * rows, OFFERS[objectives, rows]
    filled = measure_offers_of(objectives, rows, filling, folder, rounds)
    whole = measure_offers_of(objectives, rows, offers, folder, rounds)

    def nanoseconds(all_of_them, first):
        return (all_of_them.processor - first.processor) / (offers - filling) * 1e9

    return OfferRow(
        objectives,
        rows,
        members_told(whole.printed),
        nanoseconds(whole.plain, filled.plain),
        nanoseconds(whole.product, filled.product),
    )


def members_told(printed):
    words = printed.split()
    return int(words[words.index(b"members") + 1])


def measure_offers(folder, quick):
    return [measure_offers_over(objectives, rows, folder, QUICK_ROUNDS if quick else ROUNDS) for objectives, rows in OFFERS]


# Telling


def print_table(header, lines):
    print(f"| {' | '.join(header)} |")
    print(f"|{'---|' * len(header)}")
    for line in lines:
        print(f"| {' | '.join(line)} |")
    print()


def print_logs(rows):
    print_table(
        [
            "Log",
            "Size",
            "Members",
            "Plain, seconds",
            "Product, seconds",
            "Ratio",
            "Plain, by the clock",
            "Product, by the clock",
            "Plain, peak MB",
            "Product, peak MB",
            "Ratio of peaks",
        ],
        [
            [
                row.kind,
                row.size,
                str(row.members),
                f"{row.measured.plain.processor:.3f}",
                f"{row.measured.product.processor:.3f}",
                f"{row.ratio:.2f}",
                f"{row.measured.plain.wall:.3f}",
                f"{row.measured.product.wall:.3f}",
                f"{row.measured.plain.memory:.1f}",
                f"{row.measured.product.memory:.1f}",
                f"{row.memory_ratio:.2f}",
            ]
            for row in rows
        ],
    )


def print_offers(rows):
    print_table(
        [
            "Objectives",
            "Rows",
            "Members",
            "Plain, ns an offer",
            "Product, ns an offer",
            "Plain, and a member",
            "Product, and a member",
            "Factor",
        ],
        [
            [
                str(row.objectives),
                f"{row.rows:,}",
                f"{row.members:,}",
                f"{row.plain:,.0f}",
                f"{row.product:,.0f}",
                f"{row.plain / row.members:.2f}",
                f"{row.product / row.members:.2f}",
                f"{row.factor:.2f}",
            ]
            for row in rows
        ],
    )


def print_goal(goal, missed):
    """A goal with the places where it is missed."""
    print(f"- {goal}: {'not met: ' + '; '.join(missed) if missed else 'met'}")


def print_log_goals(rows):
    slow = [f"{row.name} {row.ratio:.2f}" for row in rows if row.ratio < LEAST_RATIO]
    print_goal(f"`front` is at least as fast as the plain Rust on each log (ratio ≥ {LEAST_RATIO:.1f})", slow)
    large = [f"{row.name} {row.measured.product.memory:.1f}" for row in rows if row.measured.product.memory >= MOST_MEMORY]
    print_goal(f"its peak memory is below {MOST_MEMORY:.0f} MB", large)
    lengths = {row.size for row in rows}
    if len(lengths) < 2:
        print("- its peak memory does not depend on the log's length: not tried, with logs of one length")
    else:
        print_goal("its peak memory does not depend on the log's length", growing_memory(rows))


def growing_memory(rows):
    """The kinds of logs whose peaks are apart."""
    grown = []
    for kind in KINDS:
        peaks = [row.measured.product.memory for row in rows if row.kind == kind]
        if max(peaks) - min(peaks) > SAME_MEMORY:
            grown.append(f"{kind} from {min(peaks):.1f} to {max(peaks):.1f}")
    return grown


def print_offer_goals(rows):
    print_goal(
        "an offer's cost is linear in the members (more members cost no more each, within"
        f" {SAME_COST:.2f} ×)",
        growing_cost(rows),
    )
    dear = [f"{row.name} {row.factor:.2f}" for row in rows if row.factor > MOST_FACTOR]
    print_goal(f"with a constant within {MOST_FACTOR:.1f} × of the plain Rust's", dear)


def growing_cost(rows):
    """Where an offer costs more a member than with the next fewer members."""
    return [
        f"{more.name} {more.product / more.members:.2f} ns after {fewer.product / fewer.members:.2f} ns"
        for fewer, more in zip(rows, rows[1:])
        if fewer.objectives == more.objectives
        and more.product / more.members > SAME_COST * fewer.product / fewer.members
    ]


def processor_name():
    """The processor as the system names it."""
    for line in pathlib.Path("/proc/cpuinfo").read_text().splitlines():
        if line.startswith("model name"):
            return line.partition(":")[2].strip()
    return "an unknown processor"


def read_arguments():
    parser = argparse.ArgumentParser(description=__doc__.splitlines()[0])
    parser.add_argument("--quick", action="store_true", help="logs of 10 MB alone, and fewer runs")
    parser.add_argument("--only", choices=["front", "offers"], help="one of the two tasks")
    return parser.parse_args()


def measure_all(asked):
    tasks = [pair for pair in (FRONT, OFFERING) if asked.only in (None, pair.name)]
    build_plain()
    for pair in tasks:
        build_product(pair)
    adopt_orphans()
    with tempfile.TemporaryDirectory(prefix="nubtopaz-bench-") as name:
        folder = pathlib.Path(name)
        logs = measure_logs(folder, asked.quick) if FRONT in tasks else []
        offers = measure_offers(folder, asked.quick) if OFFERING in tasks else []
    return logs, offers


def main():
    asked = read_arguments()
    try:
        logs, offers = measure_all(asked)
    except (Failed, OSError, subprocess.CalledProcessError) as why:
        say(f"bench: {why}")
        return 1
    print(f"{processor_name()}, {os.cpu_count()} cores. Times are of the processor where nothing else is said.\n")
    if logs:
        print_logs(logs)
    if offers:
        print_offers(offers)
    print("Goals:\n")
    if logs:
        print_log_goals(logs)
    if offers:
        print_offer_goals(offers)
    return 0


if __name__ == "__main__":
    sys.exit(main())

#!/usr/bin/env python3
"""Random boots on this project's machine and on EDK2's own cores, compared line by line.

  campaigns.py run [--boots N] [--seed S] [--only WORD] [--jobs N]   N boots of each campaign whose name has WORD
  campaigns.py case [--new] [NAME ..]                                the smallest boot of each known difference

A boot that differs is explained by the known differences (boots.py, RULES) with whose rules of EDK2's the
plain program (compare/plain) prints EDK2's trace. One that none explains is made smaller, kept in out/found,
and a failure. So is one that differs by order alone, where `pitools passes` prints other lines than EDK2 (boots.py, BY_ORDER). `case` compares both traces with the kept ones, or writes them with --new.
"""
import argparse
import os
import shutil
import sys
import tempfile
import time
from collections import Counter
from concurrent.futures import ProcessPoolExecutor
from dataclasses import dataclass, field

HERE = os.path.dirname(os.path.abspath(__file__))
sys.path.insert(0, HERE)

import cases  # noqa: E402
from boots import AS_EDK2, OUT, UNEXPLAINED, Outcome, compare, kind, write  # noqa: E402
from random_boots import CAMPAIGNS, Boot  # noqa: E402
from smallest import shrink  # noqa: E402

CHUNK = 5
MEMORY = "/dev/shm"  # a file system without a disk


def listed(words: Counter[str]) -> str:
    return ", ".join(f"{word} {count}" for word, count in words.most_common())


@dataclass
class Result:
    """What came of boots: how often each word, and in the order of EDK2's starts; and one unexplained boot of each kind."""

    words: Counter[str] = field(default_factory=Counter)
    followed: dict[str, Counter[str]] = field(default_factory=dict)  # the words of the boots that went so
    passed: dict[str, Counter[str]] = field(default_factory=dict)  # the same, of `pitools passes`
    out_of_turn: list[tuple[str, int, str]] = field(default_factory=list)  # the boots in which it printed other lines than it has to
    unexplained: dict[str, tuple[str, int, str]] = field(default_factory=dict)

    def add(self, name: str, seed: int, outcome: Outcome) -> None:
        self.words[outcome.word] += 1
        self.followed.setdefault(outcome.followed, Counter())[outcome.word] += 1
        self.passed.setdefault(outcome.passed, Counter())[outcome.word] += 1
        if not outcome.is_in_turn():
            self.out_of_turn.append((name, seed, outcome.passed))
        if outcome.word == UNEXPLAINED:
            self.unexplained.setdefault(kind(outcome.difference), (name, seed, outcome.difference))

    def text(self) -> str:
        return f"{self.words.total()} boots, {listed(self.words)}; in EDK2's order: {counts_of(self.followed)}; by passes: {counts_of(self.passed)}"


def counts_of(boots: dict[str, Counter[str]]) -> str:
    """How many boots went so, and if not as EDK2's, by which words."""
    return ", ".join(f"{what} {words.total()}" + (f" ({listed(words)})" if what != AS_EDK2 else "") for what, words in sorted(boots.items()))


def volumes_of(name: str, seed: int) -> list[str]:
    """The texts of a campaign's boot."""
    return Boot(CAMPAIGNS[name], f"{name} {seed}").volumes()


def boot(name: str, seed: int, folder: str) -> Outcome:
    """One random boot of a campaign, compared."""
    own = f"{folder}/{name}-{os.getpid()}"
    write(own, volumes_of(name, seed))
    return compare(own, CAMPAIGNS[name].phase)


def keep(name: str, seed: int, difference: str) -> None:
    """Keeps an unexplained boot in its smallest form."""
    folder = f"{OUT}/found/{name}-{seed}"
    shutil.rmtree(folder, ignore_errors=True)
    phase = CAMPAIGNS[name].phase
    shrink(folder, volumes_of(name, seed), kind(difference), phase)
    with open(f"{folder}/difference", "w", encoding="utf-8") as file:
        file.write(compare(folder, phase).difference + "\n")


def run(names: list[str], boots: int, seed: int, jobs: int) -> int:
    """Runs campaigns; the number of unexplained boots."""
    total, begun = Result(), time.monotonic()
    seeds = range(seed, seed + boots)
    place = MEMORY if os.path.isdir(MEMORY) else None
    with tempfile.TemporaryDirectory(prefix="edk2-boots-", dir=place) as folder, ProcessPoolExecutor(jobs) as pool:
        for name in names:
            own = Result()
            outcomes = pool.map(boot, [name] * boots, seeds, [folder] * boots, chunksize=CHUNK)
            for number, outcome in zip(seeds, outcomes):
                for result in (own, total):
                    result.add(name, number, outcome)
            print(f"{name}: {own.text()}", flush=True)
    print(f"all: {total.text()}, in {time.monotonic() - begun:.0f} s", flush=True)
    for name, number, difference in total.unexplained.values():
        print(f"unexplained: {name} {number}: {difference}", flush=True)
        keep(name, number, difference)
    for name, number, what in total.out_of_turn:
        print(f"by passes: {name} {number}: {what}", flush=True)
    return total.words[UNEXPLAINED] + len(total.out_of_turn)


def main() -> int:
    parser = argparse.ArgumentParser(description="Compares boots with EDK2's own cores.")
    commands = parser.add_subparsers(dest="command", required=True)
    campaigns = commands.add_parser("run")
    campaigns.add_argument("--boots", type=int, default=260)
    campaigns.add_argument("--seed", type=int, default=1)
    campaigns.add_argument("--only", default="")
    campaigns.add_argument("--jobs", type=int, default=os.cpu_count() or 1)
    case = commands.add_parser("case")
    case.add_argument("--new", action="store_true")
    case.add_argument("names", nargs="*")
    words = parser.parse_args()
    if words.command == "case":
        return 1 if cases.check(words.names, words.new) else 0
    names = [name for name in CAMPAIGNS if words.only in name]
    return 1 if run(names, words.boots, words.seed, words.jobs) else 0


if __name__ == "__main__":
    sys.exit(main())

#!/usr/bin/env python3
"""Deals the roots of a run to shards, one for each worker, so that their reports join to the report of all roots.

    shards.py GRAPH COUNT OUT [--roots-from FILE | --match GLOB] [--prelude LABEL] [--most-files N] [--most-text BYTES]

GRAPH has the lines of `starload --repo DIR --graph=json`, with the same prelude; `-` is standard input. The roots are
the labels in FILE, one a line, or else all files of GRAPH whose names match GLOB, by default `*.star`. Writes OUT.0,
OUT.1 .. for `starload --roots-from`, and the names of these files on standard output; standard error says how much work
is done twice. A plan decides time alone: however roots are dealt, the join of the reports is the same, byte for byte.

A root that another one reaches goes where that one is, and costs nothing there. The others of one package stay
together, unless they are more than half of an even share. The heaviest come first, each to the shard to which it adds
the least. There are more shards than COUNT if one would have more files or text than a process takes, and fewer if
there are not that many roots. Status 1: one root alone reaches more than a process takes. 2: no plan for other reasons.
"""

from __future__ import annotations

import argparse
import heapq
import json
import pathlib
import re
import sys
from collections.abc import Iterable, Iterator
from dataclasses import dataclass, field

# Seconds that a file takes, and a byte of it, as measured; only their ratio counts.
SECONDS_A_FILE = 110e-6
SECONDS_A_BYTE = 133e-9
# A shard above this many even shares gets more only if all are.
FULL = 1.05
# So many of the least loaded shards are tried for a unit, and as many of those that have most of what it loads.
TRIED = 4
# So many files outside of a unit's package decide which shards have most of what it loads.
MOST_DOORS = 64


class Refusal(Exception):
    """Why there is no plan, and the exit status."""

    def __init__(self, text: str, status: int = 2) -> None:
        super().__init__(text)
        self.status = status


@dataclass
class Graph:
    """Files by number."""

    labels: list[str] = field(default_factory=list)
    sizes: list[int] = field(default_factory=list)
    loads: list[tuple[int, ...]] = field(default_factory=list)
    numbers: dict[str, int] = field(default_factory=dict)

    def weight(self, n: int) -> float:
        """The seconds that a file takes."""
        return SECONDS_A_FILE + SECONDS_A_BYTE * self.sizes[n]

    def package(self, n: int) -> str:
        """The folder of a file's label."""
        return self.labels[n].rsplit(":", 1)[0]


def read_line(line: str) -> tuple[str, int, tuple[str, ...]]:
    """The label, the size and the loads of a file. ValueError if the line is none of a graph."""
    told = json.loads(line)
    try:
        label, size, loads = told["label"], told["bytes"], told["loads"]
    except (KeyError, TypeError) as error:
        raise ValueError(error) from error
    if not (isinstance(label, str) and isinstance(size, int) and isinstance(loads, list)):
        raise ValueError(line)
    if not all(isinstance(it, str) for it in loads):
        raise ValueError(line)
    return label, size, tuple(loads)


def read_graph(lines: Iterable[str]) -> Graph:
    """The graph that lines tell, a file a line. A label without a line has no file: nothing is read for it."""
    graph, named = Graph(), list[tuple[str, ...]]()
    for count, line in enumerate(lines, 1):
        try:
            label, size, loads = read_line(line)
        except ValueError:
            raise Refusal(f"line {count} of the graph is not one of --graph=json") from None
        n = graph.numbers.setdefault(label, len(graph.labels))
        if n == len(graph.labels):
            graph.labels.append(label)
            graph.sizes.append(size)
            named.append(loads)
        elif (graph.sizes[n], named[n]) != (size, loads):
            raise Refusal(f"lines differ about {label}")
    graph.loads = [tuple(graph.numbers[it] for it in dict.fromkeys(loads) if it in graph.numbers) for loads in named]
    return graph


@dataclass
class Shard:
    """Roots, and all files that they and the prelude reach."""

    roots: list[int] = field(default_factory=list)
    files: set[int] = field(default_factory=set)
    weight: float = 0.0
    text: int = 0

    def copy(self) -> Shard:
        """The same shard once more."""
        return Shard(list(self.roots), set(self.files), self.weight, self.text)

    def added(self, graph: Graph, roots: Iterable[int]) -> list[int]:
        """The files that these roots would add. The shard has all that its files load, so the walk ends at these."""
        new = [root for root in dict.fromkeys(roots) if root not in self.files]
        seen = set(new)
        for n in new:
            for loaded in graph.loads[n]:
                if loaded not in self.files and loaded not in seen:
                    seen.add(loaded)
                    new.append(loaded)
        return new

    def take(self, graph: Graph, roots: Iterable[int], new: list[int]) -> None:
        """Takes roots that add these files."""
        self.roots.extend(roots)
        self.files.update(new)
        self.weight += sum(map(graph.weight, new))
        self.text += sum(graph.sizes[n] for n in new)


@dataclass(frozen=True)
class Limits:
    """What one process takes."""

    files: int
    text: int

    def hold(self, graph: Graph, shard: Shard, new: list[int]) -> bool:
        """Whether a shard may have these files too."""
        text = shard.text + sum(graph.sizes[n] for n in new)
        return len(shard.files) + len(new) <= self.files and text <= self.text

    def fewest(self, shard: Shard) -> int:
        """No fewer processes have all files of this shard."""
        return max(-(-len(shard.files) // self.files), -(-shard.text // self.text))


def in_order(graph: Graph, roots: Iterable[int]) -> list[int]:
    """All files that roots reach, each before those that it loads, except on cycles."""
    seen, left = set[int](), list[int]()
    for root in roots:
        way: list[tuple[int, Iterator[int]]] = []
        found: int | None = None if root in seen else root
        while found is not None or way:
            if found is not None:
                seen.add(found)
                way.append((found, iter(graph.loads[found])))
            found = next((it for it in way[-1][1] if it not in seen), None)
            if found is None:
                left.append(way.pop()[0])
    left.reverse()
    return left


def outer_of(graph: Graph, roots: list[int]) -> list[int]:
    """The roots that no other one reaches, and one of each cycle of loads: together they reach all."""
    wanted, whole = set(roots), Shard()
    for n in in_order(graph, roots):
        if n in wanted and n not in whole.files:
            whole.take(graph, [n], whole.added(graph, [n]))
    return sorted(whole.roots, key=lambda n: graph.labels[n])


def units_of(graph: Graph, base: Shard, roots: list[int], even: float) -> list[list[int]]:
    """The roots by packages, the heaviest by what they add to those before first; a heavy package root by root."""
    packages: dict[str, list[int]] = {}
    for root in roots:
        packages.setdefault(graph.package(root), []).append(root)
    before = base.copy()
    weighed: list[tuple[float, list[int]]] = []
    for package in packages.values():
        lighter = before.weight
        before.take(graph, package, before.added(graph, package))
        weight = before.weight - lighter
        if weight > even / 2:
            weighed += [(weight / len(package), [root]) for root in package]
        else:
            weighed.append((weight, package))
    return [unit for _, unit in sorted(weighed, key=lambda it: -it[0])]


def doors_of(graph: Graph, unit: list[int]) -> list[int]:
    """Files outside of a unit's package that files in it load."""
    here, seen, todo, found = graph.package(unit[0]), set(unit), list(unit), list[int]()
    for n in todo:
        for loaded in graph.loads[n]:
            if loaded in seen:
                continue
            seen.add(loaded)
            if graph.package(loaded) == here:
                todo.append(loaded)
            elif len(found) < MOST_DOORS:
                found.append(loaded)
    return found


def near(graph: Graph, shards: list[Shard], unit: list[int]) -> list[Shard]:
    """The shards that are tried for a unit. One without roots is among them, if there is one, and no more than one."""
    doors = doors_of(graph, unit)
    votes = [sum(map(shard.files.__contains__, doors)) for shard in shards]
    everywhere = range(len(shards))
    having = heapq.nsmallest(TRIED, everywhere, key=lambda i: (-votes[i], shards[i].weight, i))
    light = heapq.nsmallest(TRIED, everywhere, key=lambda i: (shards[i].weight, bool(shards[i].roots), i))
    tried = [shards[i] for i in dict.fromkeys([i for i in having if votes[i]] + light)]
    return [it for it in tried if it.roots] + [it for it in tried if not it.roots][:1]


def place(graph: Graph, shards: list[Shard], unit: list[int], limits: Limits, most: float) -> tuple[Shard, list[int]]:
    """The shard for a unit, and what the unit adds to it: too much for a process only if it is so everywhere."""
    best: tuple[tuple[bool, float, float], Shard, list[int]] | None = None
    for shard in near(graph, shards, unit):
        if best is not None and best[0][:2] == (False, 0.0) and not shard.roots:
            break  # nowhere else does a unit add more
        new = shard.added(graph, unit)
        adds = sum(map(graph.weight, new))
        level = shard.weight + adds
        key = (not limits.hold(graph, shard, new), level if level > most else 0.0, adds)
        if best is None or key < best[0]:
            best = (key, shard, new)
    assert best is not None
    return best[1], best[2]


def deal(graph: Graph, shards: list[Shard], units: list[list[int]], limits: Limits, most: float) -> list[Shard] | None:
    """Units dealt to shards without roots; None if these are too few. What fits nowhere is dealt root by root."""
    waiting, base = units[::-1], shards[0].copy() if shards else Shard()
    while waiting:
        unit = waiting.pop()
        shard, new = place(graph, shards, unit, limits, most)
        if limits.hold(graph, shard, new):
            shard.take(graph, unit, new)
        elif len(unit) > 1:
            waiting += [[root] for root in reversed(unit)]
        elif not limits.hold(graph, base, base.added(graph, unit)):
            raise Refusal(f"{graph.labels[unit[0]]} reaches more than a process takes", 1)
        else:
            return None
    return [shard for shard in shards if shard.roots]


def spread(shards: list[Shard], roots: Iterable[int]) -> None:
    """Gives roots to shards that have them among their files."""
    waiting = set(roots)
    for shard in shards:
        here = waiting & shard.files
        shard.roots.extend(here)
        waiting -= here
    assert not waiting


def base_of(graph: Graph, prelude: int | None, limits: Limits) -> Shard:
    """A shard without roots: what the prelude reaches."""
    base = Shard()
    if prelude is not None:
        base.take(graph, [], base.added(graph, [prelude]))
    if not limits.hold(graph, base, []):
        raise Refusal("the prelude reaches more than a process takes", 1)
    return base


@dataclass
class Plan:
    """The shards, and one that would have all of their roots."""

    shards: list[Shard]
    whole: Shard

    def told(self, workers: int) -> str:
        """How much is done twice, and what it costs."""
        if not self.shards:
            return "no roots"
        work, busy = sum(shard.weight for shard in self.shards), min(workers, len(self.shards))
        slowest = max(work / busy, *(shard.weight for shard in self.shards))
        return (
            f"{number_of(len(self.whole.files), 'file')} in {number_of(len(self.shards), 'shard')}, "
            f"work {work / self.whole.weight:.2f}: {number_of(busy, 'worker')} at most "
            f"{self.whole.weight / slowest:.1f} times as fast as one process"
        )


def number_of(count: int, what: str) -> str:
    """So many things in words."""
    return f"{count} {what}" if count == 1 else f"{count} {what}s"


def plan(graph: Graph, roots: list[int], prelude: int | None, count: int, limits: Limits) -> Plan:
    """The roots in at least so many shards, if there are so many, that a process takes each."""
    outer, base = outer_of(graph, roots), base_of(graph, prelude, limits)
    whole = base.copy()
    whole.take(graph, roots, whole.added(graph, roots))
    count = min(max(count, limits.fewest(whole)), len(outer))
    shards: list[Shard] | None = None
    while shards is None:
        # With as many shards as roots there is one without roots for each, so this ends.
        even = whole.weight / max(count, 1)
        empty = [base.copy() for _ in range(count)]
        shards = deal(graph, empty, units_of(graph, base, outer, even), limits, FULL * even)
        count = min(count + max(1, count // 4), len(outer))
    spread(shards, set(roots).difference(outer))
    return Plan(shards, whole)


def lines_of(path: str) -> Iterator[str]:
    """The lines of a file, or of standard input."""
    if path == "-":
        yield from sys.stdin
    else:
        with open(path, encoding="utf-8") as file:
            yield from file


def number(graph: Graph, label: str, what: str) -> int:
    """The number of a label."""
    if label not in graph.numbers:
        hint = "" if label.startswith("//") else " (labels are wanted, as //app:main.star)"
        raise Refusal(f"no such {what}: {label}{hint}")
    return graph.numbers[label]


def roots_from(graph: Graph, path: str) -> list[int]:
    """The roots whose labels a file has, a line each; lines that are empty or begin with # have none."""
    labels = dict.fromkeys(line.strip() for line in lines_of(path))
    return [number(graph, label, "root") for label in labels if label and not label.startswith("#")]


def matching(graph: Graph, pattern: str) -> list[int]:
    """The files whose names match a pattern: `*` is any text, `?` one character."""
    glob = re.compile("".join({"*": ".*", "?": "."}.get(it) or re.escape(it) for it in pattern))
    found = [n for n, label in enumerate(graph.labels) if glob.fullmatch(label.rsplit(":", 1)[-1])]
    if not found:
        raise Refusal(f"no file matches: {pattern}")
    return found


def write(graph: Graph, shards: list[Shard], out: str) -> None:
    """Writes the roots of each shard to a file, and the names of the files. No file of a longer plan may lie there."""
    place, front = pathlib.Path(out).parent, pathlib.Path(out).name + "."
    for path in place.iterdir():
        end = path.name.removeprefix(front)
        if end != path.name and end.isdecimal() and int(end) >= len(shards):
            raise Refusal(f"{path} is of another plan: remove it")
    for i, shard in enumerate(shards):
        with open(f"{out}.{i}", "w", encoding="utf-8") as file:
            file.writelines(f"{label}\n" for label in sorted(graph.labels[root] for root in shard.roots))
    for i in range(len(shards)):
        print(f"{out}.{i}")


def positive(word: str) -> int:
    """A number of at least 1."""
    value = int(word)
    if value < 1:
        raise ValueError(word)
    return value


def words_of_command() -> argparse.Namespace:
    """The words of the command line."""
    parser = argparse.ArgumentParser(description="Deals the roots of a run to shards, whose reports join.")
    parser.add_argument("graph", metavar="GRAPH", help="lines of `starload --graph=json`; - is standard input")
    parser.add_argument("count", metavar="COUNT", type=positive, help="how many workers there are")
    parser.add_argument("out", metavar="OUT", help="the roots of the shards are written to OUT.0, OUT.1 ..")
    roots = parser.add_mutually_exclusive_group()
    roots.add_argument("--roots-from", metavar="FILE", help="the labels of the roots, one a line")
    roots.add_argument("--match", metavar="GLOB", default="*.star", help="else the names of roots [%(default)s]")
    parser.add_argument("--prelude", metavar="LABEL", help="the prelude, which each shard reads")
    limits = parser.add_argument_group("what one process takes")
    limits.add_argument("--most-files", metavar="N", type=positive, default=10_000, help="[%(default)s]")
    limits.add_argument("--most-text", metavar="BYTES", type=positive, default=268_435_456, help="[%(default)s]")
    return parser.parse_args()


def main() -> int:
    """Writes the plan that the command line asks for; the exit status."""
    words = words_of_command()
    try:
        graph = read_graph(lines_of(words.graph))
        roots = roots_from(graph, words.roots_from) if words.roots_from else matching(graph, words.match)
        prelude = number(graph, words.prelude, "prelude") if words.prelude else None
        made = plan(graph, roots, prelude, words.count, Limits(words.most_files, words.most_text))
        write(graph, made.shards, words.out)
    except Refusal as refusal:
        print(f"shards: {refusal}", file=sys.stderr)
        return refusal.status
    except (OSError, UnicodeDecodeError) as error:
        print(f"shards: {error}", file=sys.stderr)
        return 2
    print(f"shards: {made.told(words.count)}", file=sys.stderr)
    return 0


if __name__ == "__main__":
    sys.exit(main())

#!/usr/bin/env python3
"""Measures programs beside the tools that users compare them with, from text to text, and prints a table.

In each row the programs and the peer run in turn, seven times; the table has the median of each, and
the peak of its memory. The time of a peer is the sum of its commands: those of OpenFst read a text,
do the work and print a text. A row whose peer is not installed (libfst-tools, libxml2-utils) has none.
No test times anything; the numbers depend on the machine and on what else it does.

Usage: bench/peers.py PROGRAM [PROGRAM..] [--turns N] [--only WORD]"""
import argparse
import concurrent.futures
import os
import random
import re
import resource
import shutil
import statistics
import subprocess
import sys
import time

sys.dont_write_bytecode = True
import bench
from bench import MOST, path, write

TOOLS = os.path.join(os.path.dirname(os.path.abspath(__file__)), "..", "tools")
LETTERS = [chr(97 + it) for it in range(26)]


def run_once(words, out):
    """Runs a command, and returns its seconds and its peak memory in megabytes."""
    with open(out, "wb") as sink:
        begun = time.perf_counter()
        child = subprocess.Popen(words, stdout=sink, stderr=subprocess.DEVNULL)
        _, status, usage = os.wait4(child.pid, 0)
        seconds = time.perf_counter() - begun
    child.returncode = os.waitstatus_to_exitcode(status)
    if child.returncode != 0:
        sys.exit("bench/peers.py: status %d of %s" % (child.returncode, " ".join(words)))
    return seconds, usage.ru_maxrss / 1024


def run_all(commands):
    """Runs commands one after another, and returns the sum of their seconds and the greatest peak."""
    taken = [run_once(words, path("peer.out")) for words in commands]
    return sum(it[0] for it in taken), max(it[1] for it in taken)


def is_there(commands):
    return bool(commands) and all(shutil.which(words[0]) for words in commands)


# ---- texts for the peers

def symbols(name, labels):
    return write(name, ["%s %d" % (label, number) for number, label in enumerate(["<eps>", *labels])])


def arcs_of(name, file, *options):
    """Writes a file of words as arcs of OpenFst's text format. The leaf `e`, which is a letter too, is the end mark."""
    with open(file) as lines:
        marked = write(name + ".marked", [re.sub(r"-> e(?= #|$)", "-> end", it.replace(".e ->", ".end ->")) for it in lines.read().splitlines()])
    made = subprocess.run([sys.executable, os.path.join(TOOLS, "to-fst"), *options, marked], capture_output=True, text=True, check=True)
    return write(name, made.stdout.splitlines())


def compiled(text, letters, out, *options):
    """The command that compiles such a text."""
    given = ["--isymbols=" + letters] + ([] if "--acceptor" in options else ["--osymbols=" + letters])
    return ["fstcompile", *options, *given, text, path(out)]


def printed(file, letters, *options):
    given = ["--isymbols=" + letters] + ([] if "--acceptor" in options else ["--osymbols=" + letters])
    return ["fstprint", *options, *given, path(file)]


def backward_chain(size):
    """The arcs of the sets of positions, read from their end, as `determinize` reads them."""
    lines = ["0 1 a 1"] + ["%d %d %s" % (it, it + 1, letter) for it in range(1, size) for letter in "ab"]
    return lines + ["0 0 a", "0 0 b", str(size)]


def layers(count, width):
    """A grammar of words of one letter: each state of a layer has ten rules over states of the next; and its arcs from the end."""
    random.seed(17)
    rules, arcs = ["s0_0"], []
    for layer in range(count):
        for state in range(width):
            for to in random.sample(range(width), 10):
                cost = random.randrange(10)
                rules.append("s%d_%d -> a(s%d_%d) # %d" % (layer, state, layer + 1, to, cost))
                arcs.append("%d %d a %d" % (1 + (layer + 1) * width + to, 1 + layer * width + state, cost))
    rules += ["s%d_%d -> e" % (count, state) for state in range(width)]
    ends = ["0 %d b" % (1 + count * width + state) for state in range(width)]
    return rules, ends + arcs + ["1"]


def labelled_arcs(size):
    """Arcs of about `size` bytes between 200,000 states, with 20,000 labels and weights."""
    random.seed(18)
    lines, length = [], 0
    while length < size:
        lines.append("%d %d w%d w%d %d" % (random.randrange(200000), random.randrange(200000), random.randrange(20000), random.randrange(20000), random.randrange(1000)))
        length += len(lines[-1]) + 1
    return lines + ["1"]


# ---- the rows: a name, the words of a run, and the peer's commands

def trie_rows():
    trie = write("trie.grammar", bench.trie(250000))
    letters = symbols("trie.symbols", LETTERS)
    text = arcs_of("trie.arcs", trie, "--acceptor")
    begin, end = compiled(text, letters, "trie.fst", "--acceptor"), printed("trie.done", letters, "--acceptor")
    for k in (1, 100, 10000):
        best = ["fstshortestpath", "--nshortest=%d" % k, path("trie.fst"), path("trie.done")]
        yield "`kbest` of a trie of 252,830 rules, k = %s" % format(k, ","), ["-k", str(k), "kbest", trie], [begin, best, end]
    yield "`prune` of it, beam 5", ["--beam", "5", "prune", trie], [begin, ["fstprune", "--weight=5", path("trie.fst"), path("trie.done")], end]
    yield "`inside` of it", ["inside", trie], [begin, ["fstshortestdistance", "--reverse", path("trie.fst")]]


def large_rows():
    grammar = write("many_states.grammar", bench.flat_grammar(MOST - 4096, 200000))
    labels = symbols("arcs.symbols", ["w%d" % it for it in range(20000)])
    begin = [compiled(write("labelled.arcs", labelled_arcs(MOST)), labels, "labelled.fst")]
    yield "`normal` of a grammar of 8 MB over 200,000 states", ["normal", grammar], begin
    yield "one tree weighed by it", ["weigh", grammar, write("one.trees", ["w1"])], begin
    yield "`runs` of it", ["runs", grammar], begin
    yield "`check` of a transducer of 8 MB", ["check", write("large.transducer", bench.reading_transducer(210000))], begin


def word_rows():
    letters = symbols("letters.symbols", list("abcde"))
    grammars = [write("monadic%d.grammar" % seed, bench.monadic(800, seed)) for seed in (11, 12)]
    moves = [write("words%d.transducer" % seed, bench.turning_words(800, seed)) for seed in (11, 12)]
    accepting = [compiled(arcs_of("monadic%d.arcs" % it, file, "--acceptor"), letters, "m%d.fst" % it, "--acceptor") for it, file in enumerate(grammars)]
    turning = [compiled(arcs_of("words%d.arcs" % it, file), letters, "w%d.fst" % it) for it, file in enumerate(moves)]
    connect, end = ["fstconnect", path("both.fst"), path("done.fst")], printed("done.fst", letters)

    def by(*steps):
        return [*steps, connect, end]

    def sort(kind, file):
        return ["fstarcsort", "--sort_type=" + kind, path(file), path(file + ".sorted")]

    yield "`intersect` of 800 by 800 states", ["intersect", *grammars], by(*accepting, sort("ilabel", "m1.fst"), ["fstintersect", path("m0.fst"), path("m1.fst.sorted"), path("both.fst")])
    yield "`compose` of 800 by 800 states", ["compose", *moves], by(*turning, sort("ilabel", "w1.fst"), ["fstcompose", path("w0.fst"), path("w1.fst.sorted"), path("both.fst")])
    project = ["fstproject", "--project_type=output", path("pairs.fst"), path("both.fst")]
    yield "`forward` of 800 by 800 states", ["forward", grammars[0], moves[1]], by(accepting[0], turning[1], sort("ilabel", "w1.fst"), ["fstcompose", path("m0.fst"), path("w1.fst.sorted"), path("pairs.fst")], project)
    yield "`backward` of 800 by 800 states", ["backward", moves[0], grammars[1]], by(turning[0], accepting[1], sort("ilabel", "m1.fst"), ["fstcompose", path("w0.fst"), path("m1.fst.sorted"), path("pairs.fst")], ["fstproject", path("pairs.fst"), path("both.fst")])


def set_rows():
    letters = symbols("ab.symbols", list("ab"))
    end = printed("set.done", letters, "--acceptor")
    make = ["fstdeterminize", path("set.fst"), path("set.done")]
    rules, arcs = layers(10, 200)
    wide = compiled(write("wide.arcs", arcs), letters, "set.fst", "--acceptor")
    yield "`determinize` of ten layers of 200 states, one letter", ["determinize", write("wide.grammar", rules)], [wide, make, end]
    chain = compiled(write("chain.arcs", backward_chain(16)), letters, "set.fst", "--acceptor")
    yield "`determinize` of the sets of 16 positions", ["determinize", write("chain16.grammar", bench.chain_family(16))], [chain, make, end]
    yield "`demo 16`", ["demo", "16"], [chain, make, end]


def tree_rows():
    lines = bench.some_trees(MOST - 8192)
    tiny = write("tiny.grammar", ["s0", "s0 -> w1"])
    yield "8 MB of trees read, weighed and printed", ["weigh", tiny, write("large.trees", lines)], [["xmllint", "--noout", write("large.xml", bench.as_xml(lines, MOST))]]
    versions = bench.mallard()
    if versions:
        yield "`compare` of Mallard 1.0 and 1.1", ["-m", "boolean", "compare", *versions], []


def rows():
    """All rows. They are made in a process of their own, since a command's peak begins with that of its parent."""
    with concurrent.futures.ProcessPoolExecutor(1) as pool:
        for family in (trie_rows, large_rows, word_rows, set_rows, tree_rows):
            yield from pool.submit(made_rows, family).result()


def made_rows(family):
    return list(family())


# ---- the table

def turns(programs, words, peer, count):
    """Runs each program and the peer in turn: for each the medians of the seconds, and the greatest peak."""
    runs = [[[program, *words]] for program in programs] + ([peer] if is_there(peer) else [])
    taken = [[] for _ in runs]
    for _ in range(count):
        for kept, commands in zip(taken, runs):
            kept.append(run_all(commands))
    return [(statistics.median(it[0] for it in kept), max(it[1] for it in kept)) for kept in taken]


def main():
    parser = argparse.ArgumentParser(description="measures programs beside the tools that users compare them with")
    parser.add_argument("programs", nargs="+")
    parser.add_argument("--turns", type=int, default=7)
    parser.add_argument("--only", default="")
    given = parser.parse_args()
    os.makedirs(bench.WORK, exist_ok=True)
    resource.setrlimit(resource.RLIMIT_CORE, (0, 0))
    heads = ["What", *["Seconds (MB)"] * len(given.programs), "Peer", "Ratio"]
    print("| %s |\n|%s" % (" | ".join(heads), "---|" * len(heads)))
    for name, words, peer in rows():
        if given.only in name:
            made = turns(given.programs, words, peer, given.turns)
            ours = made[: len(given.programs)]
            cells = ["%.3f (%.0f)" % it for it in made] + [""] * (len(given.programs) + 1 - len(made))
            ratio = "%.2f" % (ours[-1][0] / made[-1][0]) if len(made) > len(ours) else ""
            print("| %s | %s | %s |" % (name, " | ".join(cells), ratio), flush=True)


if __name__ == "__main__":
    main()

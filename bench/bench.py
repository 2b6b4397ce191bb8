#!/usr/bin/env python3
"""Measures the program on made inputs, and prints a table: time, peak memory, and how time grows over three doublings.

No test times anything; the numbers depend on the machine and on what else it does."""

import math
import os
import random
import re
import resource
import shutil
import subprocess
import sys
import time

WORK = os.path.join(os.path.dirname(os.path.abspath(__file__)), "work")
MEGABYTE = 1024 * 1024
MOST = 8 * MEGABYTE
SIZES = (1, 2, 4, 8)


def path(name):
    return os.path.join(WORK, name)


def write(name, lines):
    """Writes lines to a file, and tells its name."""
    with open(path(name), "w") as out:
        out.write("\n".join(lines) + "\n")
    return path(name)


def measure(program, *words):
    """The least of three runs: seconds, peak memory in megabytes, and the exit status."""
    best = None
    for _ in range(3):
        begun = time.perf_counter()
        child = subprocess.Popen([program, *words], stdout=subprocess.DEVNULL, stderr=subprocess.DEVNULL)
        _, status, usage = os.wait4(child.pid, 0)
        seconds = time.perf_counter() - begun
        child.returncode = os.waitstatus_to_exitcode(status)
        if best is None or seconds < best[0]:
            best = (seconds, usage.ru_maxrss / 1024, child.returncode)
    return best


# ---- inputs

def flat_grammar(size, states=2000):
    """A grammar file of about `size` bytes, of rules of one label over states, as a treebank gives them."""
    random.seed(1)
    lines, length = ["s0"], 3
    while length < size:
        left, label = random.randrange(states), random.randrange(500)
        rank = random.choice((0, 1, 2, 2, 3))
        below = " ".join("s%d" % random.randrange(states) for _ in range(rank))
        right = "L%d(%s)" % (label, below) if rank else "w%d" % random.randrange(20000)
        line = "s%d -> %s # %d" % (left, right, random.randrange(1000))
        lines.append(line)
        length += len(line) + 1
    return lines


def some_trees(size):
    """Trees of about `size` bytes, of up to a few thousand nodes each."""
    random.seed(2)
    lines, length = [], 0
    while length < size:
        line = "S(" + " ".join("NP(DT(w%d) NN(w%d))" % (random.randrange(500), random.randrange(9000)) for _ in range(200)) + ")"
        lines.append(line)
        length += len(line) + 1
    return lines


def as_xml(lines, size):
    """An XML document of about `size` bytes: the first trees of some lines, each node an element."""
    parts, length = ["<r>"], 7
    for line in lines:
        made, above = [], []
        for label, opening in re.findall(r"([^() ]+)(\(?)|\)", line):
            if not label:
                made.append("</%s>" % above.pop())
            elif opening:
                made.append("<%s>" % label)
                above.append(label)
            else:
                made.append("<%s/>" % label)
        text = "".join(made)
        length += len(text)
        if length > size:
            break
        parts.append(text)
    return ["".join(parts) + "</r>"]


class Weighing:
    """A grammar of 700 states and 18,000 rules, and trees that it yields."""

    def __init__(self, states=700, rules=18000):
        random.seed(3)
        self.states, self.below = states, {}
        lines = ["s0"]
        for number in range(rules):
            left = number % states
            rank = 0 if number < states else random.choice((0, 0, 1, 2, 2, 2, 3))
            children = [random.randrange(states) for _ in range(rank)]
            label = "w%d" % random.randrange(4000) if rank == 0 else "N%d" % random.randrange(300)
            self.below.setdefault(left, []).append((label, children))
            right = "%s(%s)" % (label, " ".join("s%d" % q for q in children)) if rank else label
            lines.append("s%d -> %s # %d" % (left, right, random.randrange(100)))
        self.lines = lines

    def tree(self, nodes):
        """A tree of about so many nodes, put together from the root on: (its text, its nodes)."""
        out, stack, count = [], [0], 0
        while stack:
            top = stack.pop()
            if isinstance(top, str):
                out.append(top)
                continue
            count += 1
            rules = self.below[top]
            short = [r for r in rules if not r[1]]
            if count + len(stack) >= nodes:
                label, children = random.choice(short)
            else:
                label, children = random.choice([r for r in rules if r[1]] or short)
            out.append(label)
            if children:
                out.append("(")
                stack.append(")")
                for i, child in enumerate(reversed(children)):
                    if i:
                        stack.append(" ")
                    stack.append(child)
        return "".join(out), count

    def trees(self, number, nodes):
        made = [self.tree(nodes) for _ in range(number)]
        return [text for text, _ in made], sum(count for _, count in made)


class Schema:
    """A grammar as document schemas give it, and documents that it yields. A state stands for a place in the content of an
    element, and a node of an element has what stands in it on the left and what follows it on the right. So the rules of an
    element share their first state and differ in the second; 300 of 700 places may be the last, and one element, which is
    mostly empty, may come at 500 of them."""

    def __init__(self, states=700, elements=60, each=300, most=500, ends=300):
        random.seed(6)
        self.begins = [random.randrange(states) for _ in range(elements)]
        self.ends = set(random.sample(range(states), ends)) | {0, self.begins[0]}
        self.moves = [{} for _ in range(states)]
        for element in range(elements):
            for state in random.sample(range(states), each if element else most):
                self.moves[state][element] = min(state - state % 12 + random.randrange(12), states - 1)
        self.lines = ["s0"] + ["s%d -> end" % state for state in sorted(self.ends)]
        for state, moves in enumerate(self.moves):
            self.lines += ["s%d -> e%d(s%d s%d) # 1" % (state, e, self.begins[e], after) for e, after in sorted(moves.items())]

    def tree(self, nodes):
        """A document of about so many nodes: lists of some thirty elements, four levels deep at most."""
        out, stack, count = [], [(0, 0)], 0
        while stack:
            top = stack.pop()
            if isinstance(top, str):
                out.append(top)
                continue
            state, depth = top
            count += 1
            inner = [e for e in self.moves[state] if depth < 3 and count < nodes] or [e for e in self.moves[state] if self.begins[e] in self.ends]
            if state in self.ends and (not inner or count >= nodes or random.random() < 0.06 * depth):
                out.append("end")
                continue
            element = 0 if 0 in self.moves[state] and random.random() < 0.6 else random.choice(inner)
            out.append("e%d(" % element)
            stack += [")", (self.moves[state][element], depth), " ", (self.begins[element], depth + 1)]
        return "".join(out), count

    def trees(self, number, nodes):
        made = [self.tree(nodes) for _ in range(number)]
        return [text for text, _ in made], sum(count for _, count in made)


def chain_family(size):
    """The grammar of sets of positions: p0 loops, and a chain of states leads to it."""
    lines = ["p%d" % size, "p0 -> e", "p0 -> a(p0)", "p0 -> b(p0)", "p1 -> a(p0) # 1"]
    for i in range(1, size):
        lines += ["p%d -> a(p%d)" % (i + 1, i), "p%d -> b(p%d)" % (i + 1, i)]
    return lines


def one_chain(size):
    """One chain of lone states, and a rule at its end."""
    return ["s0"] + ["s%d -> s%d # 1" % (i, i + 1) for i in range(size - 1)] + ["s%d -> a" % (size - 1)]


def long_words(size):
    """The grammar of one long word: a round of a hunt finds one key."""
    return ["s0"] + ["s%d -> f(s%d)" % (i, i + 1) for i in range(size - 1)] + ["s%d -> a" % (size - 1)]


def wide_words(size):
    """The grammar of a full binary trie of so many states: a few rounds of a hunt find all keys."""
    lines = ["s0"]
    for i in range(size):
        below = [(letter, 2 * i + k) for letter, k in (("f", 1), ("g", 2)) if 2 * i + k < size]
        lines += ["s%d -> %s(s%d)" % (i, letter, child) for letter, child in below] or ["s%d -> a" % i]
    return lines


def trie(rules):
    """A grammar whose states are the nodes of a trie of words: each has a rule for each letter below it."""
    random.seed(5)
    lines, nodes, edges = ["t0"], 1, set()
    while len(lines) <= rules:
        node = 0
        for _ in range(random.randrange(4, 12)):
            letter = random.randrange(26)
            if (node, letter) not in edges:
                edges.add((node, letter))
                lines.append("t%d -> %s(t%d) # %d" % (node, chr(97 + letter), nodes, random.randrange(9)))
                node = nodes
                nodes += 1
            else:
                node = random.randrange(nodes)
            if len(lines) > rules:
                break
        lines.append("t%d -> end # 1" % node)
    return lines


def lattice(layers, width):
    """A grammar of words in deterministic form: the states of a layer have two letters each over states of the next, in two orders."""
    lines = ["s0_0"]
    for layer in range(layers):
        for letter in "ab":
            places = random.sample(range(width), width)
            lines += ["s%d_%d -> %s(s%d_%d) # %d" % (layer, it, letter, layer + 1, places[it], random.randrange(100)) for it in range(width)]
    return lines + ["s%d_%d -> e%d" % (layers, it, it) for it in range(width)]


def packed_forest(words):
    """A grammar of all binary trees over so many words: a state for each stretch of them, with a rule for each place to part it."""
    random.seed(31)
    lines = ["p0_%d" % words]
    for long in range(words, 1, -1):
        for start in range(words - long + 1):
            end = start + long
            lines += ["p%d_%d -> N(p%d_%d p%d_%d) # %d" % (start, end, start, it, it, end, random.randrange(50)) for it in range(start + 1, end)]
    return lines + ["p%d_%d -> w%d" % (it, it + 1, it) for it in range(words)]


def monadic(states, seed):
    """A grammar of words: each state has three rules of one letter of five over a state, the start one for each letter, and
    one state in eight has an end."""
    random.seed(seed)
    lines = ["s0"] + ["s0 -> %s(s%d) # %d" % (letter, random.randrange(states), random.randrange(10)) for letter in "abcde"]
    for state in range(1, states):
        lines += ["s%d -> %s(s%d) # %d" % (state, random.choice("abcde"), random.randrange(states), random.randrange(10)) for _ in range(3)]
        if state % 8 == 1:
            lines.append("s%d -> e # 1" % state)
    return lines


def backward_deterministic(states, seed):
    """A grammar of words that is deterministic as they are read from their end: each of five letters leads from each state
    to one."""
    random.seed(seed)
    lines = ["s0"]
    for letter in "abcde":
        lines += ["s%d -> %s(s%d) # %d" % (random.randrange(states), letter, state, random.randrange(10)) for state in range(states)]
    return lines + ["s%d -> e" % random.randrange(states)]


def mallard():
    """Two versions of a schema as grammars, each with the names of the other, where the schemas are installed."""
    schemas = ["/usr/share/xml/mallard/%s/mallard-%s.rng" % (it, it) for it in ("1.0", "1.1")]
    if not all(map(os.path.exists, schemas)):
        return []
    converter = os.path.join(os.path.dirname(__file__), "..", "tools", "from-relaxng")
    paths = []
    for schema, other in zip(schemas, reversed(schemas)):
        made = subprocess.run([sys.executable, converter, "--names", other, schema], capture_output=True, text=True, check=True).stdout
        paths.append(write(os.path.basename(schema) + ".grammar", made.splitlines()))
    return paths


def turning_words(states, seed):
    """A transducer of words: each state has three rules that turn one letter of five into one of five and go on in a state, the
    start one for each letter that it reads, and one state in eight has an end."""
    random.seed(seed)
    lines = ["s0"] + ["s0.%s(x0:) -> %s(s%d.x0) # %d" % (letter, random.choice("abcde"), random.randrange(states), random.randrange(10)) for letter in "abcde"]
    for state in range(1, states):
        lines += ["s%d.%s(x0:) -> %s(s%d.x0) # %d" % (state, random.choice("abcde"), random.choice("abcde"), random.randrange(states), random.randrange(10)) for _ in range(3)]
        if state % 8 == 1:
            lines.append("s%d.e -> e # 1" % state)
    return lines


def turning_letters(states):
    """A transducer of words: each state turns each of the five letters into another one, and goes on in another state."""
    random.seed(13)
    lines = ["t0"]
    for state in range(states):
        lines += ["t%d.%s(x0:) -> %s(t%d.x0) # %d" % (state, letter, random.choice("abcde"), random.randrange(states), random.randrange(10)) for letter in "abcd"]
        lines.append("t%d.e -> e" % state)
        lines.append("t%d.e(x0:) -> e(t%d.x0) # 1" % (state, random.randrange(states)))
    return lines


def many_matches(holes):
    """A grammar, and a transducer each for forward and backward application, of which one side has 2^holes matches: each hole
    stands below a rule with two choices."""
    grammar = ["s", "s -> f(a s)", "s -> f(b s)", "s -> e", "a -> w", "b -> w"]
    read, put = "e", "e"
    for i in reversed(range(holes)):
        read, put = "f(x%d: %s)" % (i, read), "f(u.x%d %s)" % (i, put)
    variables, pairs = " ".join("x%d:" % i for i in range(holes)), " ".join("u.x%d" % i for i in range(holes))
    forward = ["t", "t.%s -> h(%s)" % (read, pairs), "u.w -> w"]
    backward = ["t", "t.h(%s) -> %s" % (variables, put), "u.w -> w"]
    return grammar, forward, backward


def wide_tree(nodes):
    """A tree of just so many nodes, each of one of twenty labels, with up to three children."""
    random.seed(14)
    below, open_nodes = [[]], [0]
    while len(below) < nodes:
        at = open_nodes.pop(random.randrange(len(open_nodes)))
        for _ in range(min(random.choice((1, 2, 2, 3)), nodes - len(below))):
            below[at].append(len(below))
            open_nodes.append(len(below))
            below.append([])
    out, stack = [], [0]
    while stack:
        top = stack.pop()
        if isinstance(top, str):
            out.append(top)
            continue
        out.append("n%d_%d" % (top % 5, len(below[top])))
        if below[top]:
            out.append("(")
            stack.append(")")
            for i, child in enumerate(reversed(below[top])):
                stack += [" ", child] if i else [child]
    return "".join(out)


def any_rules(rules, states=6):
    """A transducer of so many rules for such trees: they copy, leave out, turn around, and one in eight has several labels on the left."""
    random.seed(15)
    lines = ["t0"]
    while len(lines) <= rules:
        number = len(lines)
        state, label, rank = number % states, random.randrange(5), number // states % 4
        left, count = "n%d_%d" % (label, rank), rank
        if rank:
            first = "x0:"
            if number % 8 == 0:
                first, count = "n%d_1(x0:)" % random.randrange(5), rank
            left += "(" + " ".join([first] + ["x%d:" % it for it in range(1, rank)]) + ")"
        pairs = ["t%d.x%d" % (random.randrange(states), random.randrange(count)) for _ in range(random.randint(0, 3) if count else 0)]
        right = "m%d(%s)" % (random.randrange(9), " ".join(pairs)) if pairs else "w%d" % random.randrange(9)
        lines.append("t%d.%s -> %s # %d" % (state, left, right, random.randrange(10)))
    return lines


def binarised(rules, states=20, words=60):
    """A tree-to-string transducer of this many rules: of two parts in either order, and of single words."""
    random.seed(34)
    lines = ["s0"]
    for n in range(rules - words):
        left, one, two = (random.randrange(states) for _ in range(3))
        right = ["s%d.x0" % one, "s%d.x1" % two]
        random.shuffle(right)
        lines.append("s%d.L%d(x0: x1:) -> %s # %d" % (left if n >= states else n, n, " ".join(right), random.randrange(20)))
    for n in range(words):
        lines.append("s%d.w%d -> v%d # %d" % (random.randrange(states), n, n, random.randrange(20)))
    return lines


def a_sentence(length, words=60):
    random.seed(35)
    return [" ".join("v%d" % random.randrange(words) for _ in range(length))]


def deep_trees(depth, number):
    random.seed(4)
    return ["".join(random.choice("ab") + "(" for _ in range(depth)) + "e" + ")" * depth for _ in range(number)]


def reading_transducer(rules, states=20000):
    """A linear transducer of so many rules, one in four of which leaves a variable out."""
    random.seed(41)
    lines = ["s0"]
    while len(lines) <= rules:
        number = len(lines) - 1
        rank = (0, 1, 2, 2)[number // states % 4]
        reads = "L%d(%s)" % (random.randrange(500), " ".join("x%d:" % it for it in range(rank))) if rank else "w%d" % random.randrange(20000)
        used = range(rank - 1) if number % 4 == 0 and rank else range(rank)
        pairs = " ".join("s%d.x%d" % (random.randrange(states), it) for it in used)
        lines.append("s%d.%s -> %s # %d" % (number % states, reads, "M(%s)" % pairs if pairs else "m", random.randrange(10)))
    return lines


def as_automata(first, second):
    """Writes two grammars of words as sorted automata of OpenFst, the second without weights and deterministic, as
    `fstdifference` wants it, and returns their paths. The leaf `e`, which is a letter too, is the end mark."""
    symbols = write("letters.symbols", ["%s %d" % it for it in (("<eps>", 0), *zip("abcde", range(1, 6)))])
    paths = []
    for grammar, more in ((first, ""), (second, "fstmap --map_type=rmweight | fstdeterminize |")):
        with open(grammar) as lines:
            marked = write(os.path.basename(grammar) + ".marked", re.sub(r"(?m)-> e(?= #|$)", "-> end", lines.read()).splitlines())
        paths.append(grammar + ".fst")
        converter = os.path.join(os.path.dirname(__file__), "..", "tools", "to-fst")
        words = (sys.executable, converter, marked, symbols, paths[-1])
        pipe = "set -o pipefail; \"$0\" \"$1\" --acceptor --end end \"$2\" | fstcompile --acceptor --isymbols=\"$3\" | %s fstarcsort >\"$4\"" % more
        subprocess.run(["bash", "-c", pipe, *words], check=True)
    return paths


# ---- the table

def row(name, measured, amount, unit):
    seconds, memory, _ = measured
    print("%-58s %8.3f s %8.0f MB %12.2f %s" % (name, seconds, memory, amount / seconds, unit))


def families():
    """Yields inputs of one to eight times a size: a name, and for each of the four sizes the words of a run."""
    tiny, one = write("tiny.grammar", ["s0", "s0 -> w1"]), write("one.trees", ["w1"])
    for name, words in (
        ("grammar read and brought into normal form", lambda n: ("weigh", write("grow%d.grammar" % n, flat_grammar(n * (MEGABYTE - 4096))), one)),
        ("trees read, weighed and printed", lambda n: ("weigh", tiny, write("grow%d.trees" % n, some_trees(n * (MEGABYTE - 4096))))),
        ("inside of a trie", lambda n: ("inside", write("trie%d.grammar" % n, trie(n * 31250)))),
        ("intersect, by the pairs of states", lambda n: ("intersect", *[write("monadic%d-%d.grammar" % (n, seed), monadic(round(800 * math.sqrt(n / 8)), seed)) for seed in (11, 12)])),
        ("determinize, by the vectors that are reached", lambda n: ("determinize", write("chain%d.grammar" % n, chain_family(13 + round(math.log2(n)))))),
        ("compose, by the pairs of states", lambda n: ("compose", *[write("words%d-%d.transducer" % (n, seed), turning_words(round(800 * math.sqrt(n / 8)), seed)) for seed in (11, 12)])),
        ("forward, by the pairs of states", lambda n: ("forward", write("monadic%d-11.grammar" % n, monadic(round(800 * math.sqrt(n / 8)), 11)), write("words%d-12.transducer" % n, turning_words(round(800 * math.sqrt(n / 8)), 12)))),
        ("image, by the nodes of the tree", lambda n: ("image", write("wide%d.trees" % n, [wide_tree(n * 1250)]), write("any.transducer", any_rules(300)))),
        ("normal of one chain of 200,000 states", lambda n: ("normal", write("one_chain%d.grammar" % n, one_chain(n * 25000)))),
        ("kbest of a trie, k = 100", lambda n: ("-k", "100", "kbest", write("trie%d.grammar" % n, trie(n * 31250)))),
        ("prune of a trie", lambda n: ("prune", write("trie%d.grammar" % n, trie(n * 31250)))),
        ("normal of a trie", lambda n: ("normal", write("trie%d.grammar" % n, trie(n * 31250)))),
        ("through of a trie", lambda n: ("through", write("trie%d.grammar" % n, trie(n * 31250)))),
        ("count of a trie", lambda n: ("count", write("trie%d.grammar" % n, trie(n * 31250)))),
        ("union of two grammars", lambda n: ("union", *[write("grow%d-%d.grammar" % (n, states), flat_grammar(n * (MEGABYTE - 4096), states)) for states in (2000, 1999)])),
        ("domain", lambda n: ("domain", write("reading%d.transducer" % n, reading_transducer(n * 12500, n * 2500)))),
    ):
        yield name, [words(n) for n in SIZES]


def instructions(program, *words):
    """How many instructions a run takes, as valgrind counts them."""
    told = subprocess.run(["valgrind", "--tool=callgrind", "--callgrind-out-file=/dev/null", program, *words], stdout=subprocess.DEVNULL, stderr=subprocess.PIPE, text=True, check=False).stderr
    return int(re.search(r"Collected : (\d+)", told).group(1))


def growth(program, count, unit):
    """Prints for each family what its runs take, and the exponent by which that grows with the size."""
    for name, runs in families():
        taken = [count(program, *words) for words in runs]
        exponent = math.log(taken[-1] / taken[0]) / math.log(SIZES[-1] / SIZES[0])
        print("%-58s %s %s, exponent %.2f" % (name, ", ".join("%.3f" % it for it in taken), unit, exponent), flush=True)


def main(program):
    os.makedirs(WORK, exist_ok=True)
    resource.setrlimit(resource.RLIMIT_CORE, (0, 0))
    one = write("one.trees", ["w1"])
    tiny = write("tiny.grammar", ["s0", "s0 -> w1"])

    lines = flat_grammar(MOST - 4096)
    size = sum(len(line) + 1 for line in lines) / MEGABYTE
    row("read an 8 MB grammar (a fault in its last line)", measure(program, "weigh", write("faulty.grammar", lines + ["s0 -> ("]), one), size, "MB/s")
    row("read an 8 MB grammar, normal form, one tree", measure(program, "weigh", write("large.grammar", lines), one), size, "MB/s")

    lines = some_trees(MOST - 8192)
    size = sum(len(line) + 1 for line in lines) / MEGABYTE
    row("read 8 MB of trees (a fault in the last line)", measure(program, "weigh", tiny, write("faulty.trees", lines + ["("])), size, "MB/s")
    row("read, weigh and print 8 MB of trees", measure(program, "weigh", tiny, write("large.trees", lines)), size, "MB/s")
    if shutil.which("xmllint"):
        xml = write("large.xml", as_xml(lines, MOST))
        row("  xmllint parses 8 MB of such trees", measure("xmllint", "--noout", xml), size, "MB/s")
        row("  the same as a stream", measure("xmllint", "--noout", "--stream", xml), size, "MB/s")

    weighing = Weighing()
    grammar = write("weigh.grammar", weighing.lines)
    texts, nodes = weighing.trees(800, 1625)
    trees = write("weigh.trees", texts)
    for mode in ("minplus", "bottleneck", "boolean"):
        row("weigh %d nodes in 800 trees, 700 states, 18,000 rules, %s" % (nodes, mode), measure(program, "-m", mode, "weigh", grammar, trees), nodes / 1e6, "million nodes/s")

    schema = Schema()
    texts, nodes = schema.trees(480, 2600)
    grammar, trees = write("schema.grammar", schema.lines), write("schema.trees", texts)
    row("weigh %d nodes in 480 documents, %d rules of a schema" % (nodes, len(schema.lines) - 1), measure(program, "weigh", grammar, trees), nodes / 1e6, "million nodes/s")

    processors = sorted(os.sched_getaffinity(0))
    one_processor = measure("taskset", "-c", str(processors[0]), program, "weigh", grammar, trees)
    row("  the same on one processor", one_processor, nodes / 1e6, "million nodes/s")
    print("  on %d processors it is %.1f times as fast" % (len(processors), one_processor[0] / measure(program, "weigh", grammar, trees)[0]))

    print("\nthe sets of positions, 200 trees of depth 4,000")
    for size in (4, 8, 12, 16):
        grammar = write("chain%d.grammar" % size, chain_family(size))
        trees = write("chain%d.trees" % size, deep_trees(4000, 200))
        row("  %d states" % (size + 1), measure(program, "weigh", grammar, trees), 200 * 4001 / 1e6, "million nodes/s")

    lines = trie(250000)
    size = sum(len(line) + 1 for line in lines) / MEGABYTE
    grammar = write("trie.grammar", lines)
    row("read a trie of 250,000 rules (a fault in its last line)", measure(program, "inside", write("trie.faulty", lines + ["t0 -> ("])), size, "MB/s")
    row("inside of that trie", measure(program, "inside", grammar), size, "MB/s")
    row("normal of that trie", measure(program, "normal", grammar), size, "MB/s")
    row("prune of that trie", measure(program, "prune", grammar), size, "MB/s")
    row("trim of that trie", measure(program, "trim", grammar), size, "MB/s")
    row("through of that trie", measure(program, "through", grammar), size, "MB/s")
    row("runs of that trie", measure(program, "runs", grammar), size, "MB/s")
    row("count of that trie", measure(program, "count", grammar), size, "MB/s")
    row("  determinize of it, in boolean", measure(program, "-m", "boolean", "determinize", grammar), size, "MB/s")
    for k in (1, 100, 10000):
        row("kbest of that trie, k = %d" % k, measure(program, "-k", str(k), "kbest", grammar), 0.25, "million rules/s")
    random.seed(29)
    lines = lattice(60, 65)
    for k in (1, 100, 10000):
        row("kbest of a lattice of %d rules, k = %d" % (len(lines) - 1, k), measure(program, "-k", str(k), "kbest", write("lattice.grammar", lines)), (len(lines) - 1) / 1e6, "million rules/s")
    lines = packed_forest(30)
    for k in (1, 100, 10000):
        row("kbest of a forest over 30 words, %d rules, k = %d" % (len(lines) - 1, k), measure(program, "-k", str(k), "kbest", write("packed.grammar", lines)), (len(lines) - 1) / 1e6, "million rules/s")
    packed = path("packed.grammar")
    row("count of that forest", measure(program, "count", packed), (len(lines) - 1) / 1e6, "million rules/s")
    row("  determinize of it, in boolean", measure(program, "-m", "boolean", "determinize", packed), (len(lines) - 1) / 1e6, "million rules/s")
    row("inside of 18,000 rules over 700 states", measure(program, "inside", path("weigh.grammar")), 18000 / 1e6, "million rules/s")
    row("normal of 18,000 rules over 700 states", measure(program, "normal", path("weigh.grammar")), 18000 / 1e6, "million rules/s")

    large = path("large.grammar")
    size = os.path.getsize(large) / MEGABYTE
    row("normal of an 8 MB grammar", measure(program, "normal", large), size, "MB/s")
    row("runs of an 8 MB grammar", measure(program, "runs", large), size, "MB/s")
    row("union of two such grammars", measure(program, "union", large, write("other.grammar", flat_grammar(MOST - 4096, 1999))), 2 * size, "MB/s")

    two = [write("monadic%d.grammar" % seed, monadic(800, seed)) for seed in (11, 12)]
    pairs = subprocess.run([program, "intersect", *two], capture_output=True, check=False).stdout.splitlines()
    states = len(set(line.split(b" ", 1)[0] for line in pairs))
    row("intersect two of 800 states: %d states, %d rules" % (states, len(pairs) - 1), measure(program, "intersect", *two), (len(pairs) - 1) / 1e6, "million rules/s")

    # (a difference reads words from their end, where one state in eight begins: of 800 states it has too many sets)
    few = [write("monadic200-%d.grammar" % seed, monadic(200, seed)) for seed in (11, 12)]
    for words in ("difference", "intersect"):
        made = subprocess.run([program, words, *few], capture_output=True, check=False).stdout.splitlines()
        row("%s of two of 200 states: %d rules" % (words, len(made) - 1), measure(program, words, *few), (len(made) - 1) / 1e6, "million rules/s")
    if shutil.which("fstdifference"):
        for states, pair in ((200, few), (800, two)):
            row("  fstdifference of two of %d states, the second deterministic" % states, measure("fstdifference", *as_automata(*pair)), states / 1e6, "million states/s")
    measured = measure(program, "difference", *two)
    row("difference of two of 800 states (status %d)" % measured[2], measured, 20, "million parts/s")
    turned = [two[0], write("backward800.grammar", backward_deterministic(800, 2))]
    for words in ("difference", "intersect"):
        made = subprocess.run([program, words, *turned], capture_output=True, check=False).stdout.splitlines()
        row("%s of 800 states and 800, deterministic from the end: %d rules" % (words, len(made) - 1), measure(program, words, *turned), (len(made) - 1) / 1e6, "million rules/s")
    versions = mallard()
    for words, files in (("compare", versions), ("difference", versions), ("difference", versions[::-1])):
        if files:
            names = " and ".join(os.path.basename(it)[:11] for it in files)
            row("%s of the schemas %s" % (words, names), measure(program, "-m", "boolean", words, *files), 1, "pairs/s")

    for name, made in (("in 200,000 rounds of one", long_words(200000)), ("in 18 rounds", wide_words(200000))):
        grammar = write("words.grammar", made)
        row("intersect a grammar of 200,000 states with itself, %s" % name, measure(program, "intersect", grammar, grammar), 0.2, "million pairs/s")

    words_of, turning = write("monadic11.grammar", monadic(800, 11)), write("turning.transducer", turning_letters(100))
    for words in (("forward", words_of, turning), ("backward", turning, words_of)):
        applied = subprocess.run([program, *words], capture_output=True, check=False).stdout.splitlines()
        row("%s, 800 states and 100 of the transducer: %d rules" % (words[0], len(applied) - 1), measure(program, *words), (len(applied) - 1) / 1e6, "million rules/s")

    both = [write("words%d.transducer" % seed, turning_words(800, seed)) for seed in (11, 12)]
    composed = subprocess.run([program, "compose", *both], capture_output=True, check=False).stdout.splitlines()
    row("compose two transducers of 800 states: %d rules" % (len(composed) - 1), measure(program, "compose", *both), (len(composed) - 1) / 1e6, "million rules/s")

    lines = turning_letters(20000)
    size = sum(len(line) + 1 for line in lines) / MEGABYTE
    row("invert of %d rules, text to text" % (len(lines) - 1), measure(program, "invert", write("letters.transducer", lines)), size, "MB/s")
    row("domain of 100,000 rules, one in four with a variable left out", measure(program, "domain", write("reading.transducer", reading_transducer(100000))), 0.1, "million rules/s")

    grammar, *sides = [write("matches.%s" % name, lines) for name, lines in zip(("grammar", "forward", "backward"), many_matches(30))]
    for words in (("forward", grammar, sides[0]), ("backward", sides[1], grammar)):
        for limit in (1000, 1000000):
            measured = measure(program, "--limit", str(limit), *words)
            row("%s of a side with 2^30 matches, limit %d (status %d)" % (words[0], limit, measured[2]), measured, limit / 1e6, "million parts/s")
    tree, moves = write("wide.trees", [wide_tree(10000)]), write("any.transducer", any_rules(300))
    made = subprocess.run([program, "image", tree, moves], capture_output=True, check=False).stdout.splitlines()
    row("image of a tree of 10,000 nodes, 300 rules: %d rules" % (len(made) - 1), measure(program, "image", tree, moves), 0.01, "million nodes/s")
    tree = write("deep.trees", ["a(" * 9999 + "e" + ")" * 9999])
    moves = write("copying.transducer", ["t", "t.a(x0:) -> f(t.x0 t.x0)", "t.e -> e # 1"])
    row("image of a tree of depth 10,000, each node copied", measure(program, "image", tree, moves), 0.01, "million nodes/s")

    for size in (10, 13, 16):
        grammar = write("chain%d.grammar" % size, chain_family(size))
        made = subprocess.run([program, "determinize", grammar], capture_output=True, check=False).stdout.splitlines()
        row("demo %d" % size, measure(program, "demo", str(size)), (len(made) - 1) / 1e6, "million rules/s")
        row("determinize the sets of positions, %d states: %d rules" % (size + 1, len(made) - 1), measure(program, "determinize", grammar), (len(made) - 1) / 1e6, "million rules/s")

    for words in (60, 240):
        moves = write("binarised.transducer", binarised(300, words=words))
        for length in (10, 20, 40):
            sentence = write("sentence.string", a_sentence(length, words))
            row("parse of %d words by 300 rules, %d of single words" % (length, words), measure(program, "parse", moves, sentence), length / 1e6, "million words/s")
    same = path("weigh.grammar")
    row("compare 18,000 rules over 700 states with themselves", measure(program, "compare", same, same), 0.018, "million rules/s")

    print("\nby 1, 2 and 4 workers")
    for name, words in (("intersect two of 800 states", ("intersect", *two)), ("determinize the sets of 16 positions", ("determinize", path("chain16.grammar"))), ("demo 16", ("demo", "16"))):
        print("%-58s %s s" % (name, ", ".join("%.3f" % measure(program, "-w", str(workers), *words)[0] for workers in (1, 2, 4))))

    print("\nhow time grows over three doublings (the exponent is about 1 where it grows as the input)")
    growth(program, lambda *run: measure(*run)[0], "s")


if __name__ == "__main__":
    if len(sys.argv) == 3 and sys.argv[2] == "--instructions":
        os.makedirs(WORK, exist_ok=True)
        growth(sys.argv[1], lambda *run: instructions(*run) / 1e9, "billion instructions")
    elif len(sys.argv) == 2:
        main(sys.argv[1])
    else:
        sys.exit("usage: bench.py PROGRAM [--instructions]")

"""Reads and writes the program's files for the converters, as docs/FORMATS.md defines them.

Texts are bytes, kept as str of one character a byte (latin-1), so no byte of a label changes. The
module proves nothing.
"""
import argparse
import collections
import re
import sys

MOST_NODES = 10_000
MOST_WEIGHT = 10**15
NAME = r"[!$&'*-~\x80-\xff]"
MARK_OR_NAME = rf"(?P<mark>[()#])|(?P<name>{NAME}+)"
TOKEN = re.compile(rf'{MARK_OR_NAME}|"(?P<quoted>(?:[^"\\]|\\["\\])*)"')
WEIGHT = re.compile(r"([0-9]+)(?:\.0*)?")
VARIABLE = re.compile(r"x([0-9]{1,9})(?::(.*))?", re.DOTALL)
TIMBUK_WORDS = ("Ops", "Vars", "TRS", "Automaton", "States", "Final", "Transitions", "Description", "Prior", "Set", "Import", "Equations")
PAIR = re.compile(r"([^.]+)\.x([0-9]{1,9})")


class Fault(Exception):
    """A line of the input that cannot be converted, and why."""

    def __init__(self, line, reason):
        super().__init__(f"line {line}: {reason}")


class Label:
    """A token that is a name, or quoted; whether it follows the token before it directly; and the
    text of the quoted token that belongs to it, or None (of `q."A b"` and `x0:"A b"`)."""

    __slots__ = ("text", "quoted", "joined", "behind")

    def __init__(self, text, quoted=False, joined=False):
        self.text, self.quoted, self.joined, self.behind = text, quoted, joined, None


class Variable:
    """A variable of a left-hand side: its number, the label that it asks for or None, and whether a
    colon follows the number."""

    __slots__ = ("number", "asked", "has_colon")

    def __init__(self, number, asked, has_colon=True):
        self.number, self.asked, self.has_colon = number, asked, has_colon


class Pair:
    """A state and the number of a variable in a right-hand side."""

    __slots__ = ("state", "number")

    def __init__(self, state, number):
        self.state, self.number = state, number


class Rule:
    """A rule of a transducer file: its line, its state, its left-hand tree, its right-hand tree or
    list of Pairs and Labels, and its weight or None. A leaf of a side may be a Variable or Pair."""

    __slots__ = ("line", "state", "left", "right", "weight")

    def __init__(self, line, state, left, right, weight):
        self.line, self.state, self.left, self.right, self.weight = line, state, left, right, weight


class Tree:
    """A label, the trees below it, and whether a bracket follows the label."""

    __slots__ = ("label", "below", "is_head")

    def __init__(self, label):
        self.label, self.below, self.is_head = label, [], False

    def is_name(self):
        """Returns whether it is a leaf without quotes and brackets."""
        return isinstance(self.label, Label) and not self.is_head and not self.label.quoted


def nodes_of(tree):
    """Yields the nodes of a tree in preorder."""
    rest = [tree]
    while rest:
        it = rest.pop()
        yield it
        rest.extend(reversed(it.below))


def tokens_of(line, number, form=TOKEN):
    """Returns the tokens of a line: marks as str, and labels."""
    tokens, at, end = [], 0, -1
    while at < len(line):
        if line[at] in " \t\r":
            at += 1
            continue
        if line[at] == "%":
            break
        found = form.match(line, at)
        if not found:
            raise Fault(number, "bad token")
        if found["mark"]:
            tokens.append(found["mark"])
        elif found["name"] is not None:
            tokens.append(Label(found["name"], joined=at == end))
        else:
            tokens.append(Label(re.sub(r"\\(.)", r"\1", found["quoted"]), True, at == end))
        at = end = found.end()
    return tokens


def is_arrow(token):
    return isinstance(token, Label) and token.text == "->" and not token.quoted


def tree_of(tokens, number):
    """Returns the one tree that the tokens spell."""
    open_heads, root, count = [], None, 0
    for place, token in enumerate(tokens):
        if isinstance(token, Label) and not is_arrow(token) and (open_heads or root is None):
            tree = Tree(token)
            count += 1
            if open_heads:
                open_heads[-1].below.append(tree)
            else:
                root = tree
            if tokens[place + 1 : place + 2] == ["("]:
                tree.is_head = True
                open_heads.append(tree)
        elif token == "(" and place and isinstance(tokens[place - 1], Label):
            continue
        elif token == ")" and open_heads:
            open_heads.pop()
        else:
            raise Fault(number, "bad tree")
    if root is None or open_heads:
        raise Fault(number, "bad tree")
    if count > MOST_NODES:
        raise Fault(number, f"more than {MOST_NODES} nodes")
    return root


def text_of_label(text, also=False):
    """Returns the label as it is written in a file: in quotes if it needs them or `also` says
    so."""
    if text and not also and text != "->" and re.fullmatch(rf"{NAME}+", text):
        return text
    return '"' + re.sub(r'(["\\])', r"\\\1", text) + '"'


def text_of_tree(tree, text_of_node=lambda it: text_of_label(it.label.text)):
    """Returns the tree as it is written in a tree file, or with each node as it is given."""
    pieces, rest = [], [tree]
    while rest:
        it = rest.pop()
        if isinstance(it, str):
            pieces.append(it)
            continue
        pieces.append(text_of_node(it))
        if it.below:
            pieces.append("(")
            rest.append(")")
            for place in range(len(it.below) - 1, -1, -1):
                rest.append(it.below[place])
                if place:
                    rest.append(" ")
    return "".join(pieces)


def trees_of(text):
    """Yields each tree of a tree file, with the number of its line before it."""
    for number, line in enumerate(text.split("\n"), 1):
        tokens = tokens_of(line, number)
        if tokens:
            yield number, tree_of(tokens, number)


class Format:
    """How the lines of a file of rules are read: its tokens, the weight of the tokens after a `#`,
    the tokens of a right-hand side, and whether the states of a grammar may have a full stop."""

    def __init__(self, token=TOKEN, weight=None, right=None, has_stops=False):
        self.token, self.has_stops = token, has_stops
        self.weight = weight or weight_of
        self.right = right or (lambda tokens, number: tokens)

    def name_of(self, tokens, number, fault):
        """Returns the one name of a state that the tokens are."""
        lone = tokens[0] if len(tokens) == 1 else None
        if not isinstance(lone, Label) or lone.quoted or is_arrow(lone) or "." in lone.text and not self.has_stops:
            raise Fault(number, fault)
        return lone.text


def split_rules(text, form):
    """Returns the start, and for each rule the number of its line, its left-hand tokens, its
    right-hand tokens, and its weight or None."""
    start, rules = None, []
    for number, line in enumerate(text.split("\n"), 1):
        tokens = tokens_of(line, number, form.token)
        if not tokens:
            continue
        if start is None:
            start = form.name_of(tokens, number, "no start")
            continue
        arrows = [place for place, it in enumerate(tokens) if is_arrow(it)]
        if len(arrows) != 1 or not arrows[0]:
            raise Fault(number, "bad rule")
        left, right, weight = tokens[: arrows[0]], tokens[arrows[0] + 1 :], None
        if "#" in right:
            place = right.index("#")
            weight = form.weight(right[place + 1 :], number)
            right = right[:place]
        rules.append((number, left, form.right(right, number), weight))
    if start is None:
        raise Fault(1, "no start")
    return start, rules


def rules_of(text):
    """Returns the start, and for each rule the number of its line, its left-hand tokens, its
    right-hand tree, and its weight or None."""
    start, rules = split_rules(text, Format())
    return start, [(number, left, tree_of(right, number), weight) for number, left, right, weight in rules]


def weight_of(tokens, number):
    """Returns the weight after a `#`."""
    if len(tokens) != 1 or not isinstance(tokens[0], Label) or tokens[0].quoted:
        raise Fault(number, "bad rule")
    return whole(tokens[0].text, number)


def grammar_of(text, form=None):
    """Returns the start of a grammar file, and for each rule the number of its line, its state, its
    right-hand tree, and its weight or None."""
    form = form or Format()
    start, rules = split_rules(text, form)
    return start, [(number, form.name_of(left, number, "bad rule"), tree_of(right, number), weight) for number, left, right, weight in rules]


def is_state(tree, states):
    """Returns whether a node of a grammar's right-hand side is a state."""
    return tree.is_name() and tree.label.text in states


def states_in(tree, states):
    """Returns the states at the leaves of a grammar's right-hand side, in order."""
    return [it.label.text for it in nodes_of(tree) if is_state(it, states)]


def side_writer(names):
    """Returns the writer of a grammar's right-hand sides, with these names for the states."""
    written = set(names.values())

    def text_of(it):
        return names[it.label.text] if is_state(it, names) else text_of_label(it.label.text, it.label.text in written)

    return lambda tree: text_of_tree(tree, text_of)


def without_lost(start, rules):
    """Returns the rules without those that lead to a state without a rule, whose name a grammar
    file would take for a label. A rule begins with its state and the states that it leads to."""
    counts, users = collections.Counter(it[0] for it in rules), collections.defaultdict(list)
    for place, rule in enumerate(rules):
        for state in set(rule[1]):
            users[state].append(place)
    lost, gone = [it for it in users if not counts[it] and it != start], set()
    while lost:
        for place in users[lost.pop()]:
            if place not in gone:
                gone.add(place)
                state = rules[place][0]
                counts[state] -= 1
                if not counts[state] and state != start:
                    lost.append(state)
    return [rule for place, rule in enumerate(rules) if place not in gone]


def end_of_rule(weight):
    """Returns what ends the line of a rule of this weight, or of None."""
    return "" if weight is None else f" # {weight}"


def attached(tokens):
    """Returns the tokens of a left-hand side with each quoted label that follows its state or
    variable directly as what is behind that name."""
    found = []
    for place, token in enumerate(tokens):
        if isinstance(token, Label) and token.quoted and token.joined and isinstance(tokens[place - 1], Label):
            name = tokens[place - 1]
            root = place == 1 and name.text.find(".") == len(name.text) - 1
            if not name.quoted and (root or re.fullmatch(r"x[0-9]{1,9}:", name.text) and tokens[place + 1 : place + 2] != ["("]):
                name.behind = token.text
                continue
        found.append(token)
    return found


def left_of(tokens, number):
    """Returns the state and the tree of a transducer's left-hand side."""
    tree = tree_of(attached(tokens), number)
    root = tree.label
    state, _, label = root.text.partition(".")
    label = label if root.behind is None else root.behind
    if root.quoted or not state or state == "->" or not label and root.behind is None:
        raise Fault(number, "bad rule")
    if not tree.is_head and root.behind is None and VARIABLE.fullmatch(label):
        raise Fault(number, "lone variable on the left")
    tree.label, numbers = Label(label, True), set()
    for it in nodes_of(tree):
        found = VARIABLE.fullmatch(it.label.text) if it.is_name() else None
        if found:
            if int(found[1]) in numbers:
                raise Fault(number, "variable twice on the left")
            numbers.add(int(found[1]))
            asked = it.label.behind if it.label.behind is not None else found[2] or None
            it.label = Variable(int(found[1]), asked, found[2] is not None)
    return state, tree


def pair_of(label, number, numbers):
    """Returns the pair that an unquoted leaf of a right-hand side is, or None."""
    found = PAIR.fullmatch(label.text)
    if found and found[1] != "->":
        if int(found[2]) not in numbers:
            raise Fault(number, "unknown variable")
        return Pair(found[1], int(found[2]))
    if VARIABLE.fullmatch(label.text):
        raise Fault(number, "bad rule")
    return None


def list_of(tokens, number, numbers):
    """Returns the words and pairs of a tree-to-string transducer's right-hand side."""
    if not all(isinstance(it, Label) and not is_arrow(it) for it in tokens):
        raise Fault(number, "bad rule")
    names = [it.text for it in tokens if not it.quoted]
    if "*e*" in names:
        if len(tokens) > 1:
            raise Fault(number, "bad rule")
        return []
    if len(tokens) > MOST_NODES:
        raise Fault(number, f"more than {MOST_NODES} nodes")
    return [it if it.quoted else pair_of(it, number, numbers) or it for it in tokens]


def transducer_of(text, has_lists=False, form=None):
    """Returns the start and the rules of a transducer file, or of a tree-to-string one."""
    start, rules = split_rules(text, form or Format())
    return start, [rule_of(*rule, has_lists) for rule in rules]


def rule_of(number, left, right, weight, has_lists):
    """Returns a rule of a transducer file from the tokens of its sides."""
    state, tree = left_of(left, number)
    numbers = {it.label.number for it in nodes_of(tree) if isinstance(it.label, Variable)}
    if has_lists:
        return Rule(number, state, tree, list_of(right, number, numbers), weight)
    side = tree_of(right, number)
    for it in nodes_of(side):
        if it.is_name():
            it.label = pair_of(it.label, number, numbers) or it.label
    return Rule(number, state, tree, side, weight)


def in_transducer(text):
    """Returns whether a label is in quotes in a transducer file, whatever its bytes."""
    return "." in text or bool(VARIABLE.fullmatch(text))


def node_writer(is_quoted):
    """Returns the writer of a node of a transducer's rule, with such labels in quotes."""

    def text_of(tree):
        it = tree.label
        if isinstance(it, Pair):
            return f"{it.state}.x{it.number}"
        if isinstance(it, Variable):
            return f"x{it.number}:" if it.asked is None else f"x{it.number}:{text_of_label(it.asked, is_quoted(it.asked))}"
        return text_of_label(it.text, is_quoted(it.text))

    return text_of


def text_of_rule(rule, is_quoted=in_transducer):
    """Returns the line of a rule of a transducer file, with such labels in quotes."""
    write = node_writer(is_quoted)
    right = text_of_list(rule.right) if isinstance(rule.right, list) else text_of_tree(rule.right, write)
    return f"{rule.state}.{text_of_tree(rule.left, write)} -> {right}{end_of_rule(rule.weight)}"


def text_of_list(words):
    """Returns the list of a tree-to-string transducer's rule as it is written in a file."""

    def text(it):
        if isinstance(it, Pair):
            return f"{it.state}.x{it.number}"
        return text_of_label(it.text, it.text == "*e*" or bool(VARIABLE.fullmatch(it.text) or PAIR.fullmatch(it.text)))

    return " ".join(map(text, words)) or "*e*"


def fresh_names(names, taken, form, unfit="_"):
    """Returns a name of the form for each name: itself where it has the form and is not taken; else
    a fresh one, in which each character that is no letter or digit is `unfit`."""
    found = {it: it for it in names if form.fullmatch(it) and it not in taken}
    used = {*taken, *found}
    for it in names:
        if it not in found:
            base = fresh = "q" + re.sub(r"[^A-Za-z0-9]", unfit, it)
            number = 2
            while fresh in used:
                fresh = f"{base}_{number}"
                number += 1
            found[it] = fresh
            used.add(fresh)
    return found


def whole(text, number):
    """Returns the whole number of a weight's text."""
    found = WEIGHT.fullmatch(text)
    if not found:
        raise Fault(number, "weight is not a whole number")
    if int(found[1]) > MOST_WEIGHT:
        raise Fault(number, "weight too large")
    return int(found[1])


class Parser(argparse.ArgumentParser):
    """The options of a converter, and the file. Wrong words end the run with status 1."""

    def __init__(self, tool, words, **how):
        super().__init__(prog=f"tools/{tool}", usage=f"tools/{tool} {words}", **how)
        self.add_argument("file", nargs="?")

    def error(self, _):
        print(f"usage: {self.usage}", file=sys.stderr)
        sys.exit(1)


def scale_of(text):
    """Returns the scale of costs, a number above 0."""
    scale = float(text)
    if not 0 < scale < float("inf"):
        raise ValueError
    return scale


def run(parser, converter):
    """Reads the options and the file, converts it, and ends with the exit status."""
    given = parser.parse_args()
    sys.exit(convert(converter(given), [given.file] if given.file else []))


def convert(conversion, names):
    """Reads the named file, or standard input, converts its text, and writes the lines. Returns the
    exit status."""
    tool = sys.argv[0].rpartition("/")[2]
    try:
        if names:
            with open(names[0], "rb") as it:
                text = it.read().decode("latin-1")
        else:
            text = sys.stdin.buffer.read().decode("latin-1")
        lines = list(conversion(text))
        sys.stdout.buffer.write("".join(f"{line}\n" for line in lines).encode("latin-1"))
        sys.stdout.buffer.flush()
    except Fault as fault:
        sys.stderr.buffer.write(f"{tool}: {fault}\n".encode("latin-1", "replace"))
        return 1
    except OSError as error:
        print(f"{tool}: {error.filename or 'standard input or output'}: {error.strerror}", file=sys.stderr)
        return 1
    return 0

"""Tests of the converters of XML, for tools/test-xml: rows, faults, files, documents there
and back, schemas with one feature each, and random schemas against a second opinion, which splits
lists of children in all ways."""
import functools
import os
import random
import shutil
import tempfile
from importlib.machinery import SourceFileLoader
from importlib.util import module_from_spec, spec_from_loader

import tib_schema_rows
from tib_relaxng import Alphabet, Schema
from tib_schema_rows import RNG, element
from tib_text import rules_of, tokens_of, tree_of

TOOLS = os.path.dirname(os.path.abspath(__file__))
TEXTS = ("text", "%", "a &lt; b", "<![CDATA[ <x> ]]>", "&#233;", "1 <!-- 2 --> 3", "\n x")
DATA = '<data type="x"/>'


def schema(content, more=""):
    """Returns the text of a schema: an element `a` with a content, in a grammar with definitions."""
    return f'<grammar {RNG}><start><element name="a">{content}</element></start>{more}</grammar>'


def grammar(*rules):
    """Returns what tools/from-relaxng writes with these rules."""
    comment = "% An element is LABEL(CHILDREN REST), a run of text is $text(REST), and _ ends the children."
    return "".join(f"{line}\n" for line in (comment, "s0", *rules))


# The words of a command, its input, and its output.
ROWS = [
    ("from-xml", "<a/>", "a(_ _)\n"),
    ("from-xml", "<a> <b>x</b>\n<c/>y<!-- -->z<?p q?></a>\n", "a(b($text(_) c(_ $text(_))) _)\n"),
    ("from-xml", "<a>x<!-- -->\n</a>", "a($text(_) _)\n"),
    ("from-xml", '<a x="1"><![CDATA[]]><_/> &#32; </a>', "a(_(_ _) _)\n"),
    ("from-xml", '<p:a xmlns:p="urn:x#y"><b p:c="d"/></p:a>', '"{urn:x#y}a"(b(_ _) _)\n'),
    ("from-xml", '<?xml version="1.0" encoding="ISO-8859-1"?><\xe9>\xa0</\xe9>', "\xc3\xa9($text(_) _)\n"),
    ("from-xml", '<!DOCTYPE a SYSTEM "no.dtd" [<!ENTITY e "x<b/>&#38;amp;"><!ENTITY g SYSTEM "g" NDATA n>]><a>&e;&e;</a>', "a($text(b(_ $text(b(_ $text(_))))) _)\n"),
    ("from-xml", '<!DOCTYPE a [<!ENTITY e "x"><!ENTITY g "&e;<b/>&e;"><!ATTLIST b c CDATA "d">]><a b="&e;">&g;</a>', "a($text(b(_ $text(_))) _)\n"),
    ("to-xml", "", ""),
    ("to-xml", "% none\na(_ _)\na(_ _) # none\n\nb($text(c(_ _)) _()) # 2\n", "<a/>\n<a/>\n<b>text<c/></b>\n"),
    ("to-xml", '"{urn:x#y}a"("{urn:x#y}b"(_ c({&}d(_ _) _)) _)', '<a xmlns="urn:x#y"><b/><c xmlns=""><d xmlns="&#38;"/></c></a>\n'),
    ("to-xml", "*({*}*(_ {u}*(_ _)) _)", '<any><any xmlns="urn:any"/><any xmlns="u"/></any>\n'),
    ("to-xml", "{http://www.w3.org/XML/1998/namespace}a(\xc3\xa9(_ _) _)", "<xml:a><\xc3\xa9/></xml:a>\n"),
    ("from-relaxng", f'<element name="a" {RNG}><empty/></element>', grammar("s0 -> a(s1 s1)", "s1 -> _")),
    ("from-relaxng", schema("<text/>"), grammar("s0 -> a(s1 s2)", "s1 -> $text(s3)", "s1 -> _", "s2 -> _", "s3 -> _")),
    ("from-relaxng", schema("<notAllowed/>"), grammar()),
    ("from-relaxng", schema('<oneOrMore><ref name="b"/></oneOrMore>', f'<define name="b">{element("b")}</define>'), grammar("s0 -> a(s1 s2)", "s1 -> b(s2 s3)", "s2 -> _", "s3 -> _", "s3 -> b(s2 s3)")),
    ("from-relaxng", schema("<mixed>" + element("b") + "</mixed>"), grammar("s0 -> a(s1 s2)", "s1 -> $text(s3)", "s1 -> b(s2 s4)", "s2 -> _", "s3 -> b(s2 s4)", "s4 -> $text(s5)", "s4 -> _", "s5 -> _")),
    ("from-relaxng", schema(element("b", "<choice><empty/><notAllowed/></choice>"), "<div/>"), grammar("s0 -> a(s1 s2)", "s1 -> b(s2 s2)", "s2 -> _")),
    ("from-relaxng", f'<element name="p:a" ns="u" xmlns:p="x#" {RNG}><element name="b"><empty/></element></element>', grammar('s0 -> "{x#}a"(s1 s2)', "s1 -> {u}b(s2 s2)", "s2 -> _")),
]

# Entities each of which is twice the one before.
BOMB = "<!DOCTYPE a [<!ENTITY e0 ''>" + "".join(f"<!ENTITY e{it + 1} '&e{it};&e{it};'>" for it in range(40)) + "]><a>&e40;</a>"
# The words of a command, its input, and its message before it ends with status 1.
FAULTS = [
    ("from-xml", "", "standard input: line 1: no element found"),
    ("from-xml", "\n<a>\n<b>", "standard input: line 3: no element found"),
    ("from-xml", "<a>\n</b>", "standard input: line 2: mismatched tag"),
    ("from-xml", "<a/><b/>", "standard input: line 1: junk after document element"),
    ("from-xml", "<a>\0</a>", "standard input: line 1: not well-formed (invalid token)"),
    ("from-xml", "<a>\xff</a>", "standard input: line 1: not well-formed (invalid token)"),
    ("from-xml", "<p:a/>", "standard input: line 1: unbound prefix"),
    ("from-xml", "<a>\n&nbsp;</a>", "standard input: line 2: undefined entity"),
    ("from-xml", '<!DOCTYPE a SYSTEM "no.dtd">\n<a>\n&nbsp;</a>', "standard input: line 3: the entity 'nbsp' is not declared in the document"),
    ("from-xml", '<?xml version="1.0" encoding="no-such-code"?><a/>', "standard input: line 1: unknown encoding: no-such-code"),
    ("from-xml", '<a xmlns="u&#10;v"/>', "standard input: line 1: a namespace with a line feed cannot be a label"),
    ("from-xml", BOMB, "standard input: line 1: the entity 'e14' is too long for its uses"),
    ("from-xml", '<!DOCTYPE a [<!ENTITY c "&#38;c;">]><a>&c;</a>', "standard input: line 1: the entity 'c' refers to 'c', which is not declared before it"),
    ("from-xml", '<!DOCTYPE a [<!ENTITY c "&b;"><!ENTITY b "&c;">]><a/>', "standard input: line 1: the entity 'c' refers to 'b', which is not declared before it"),
    ("from-xml", '<!DOCTYPE a [\n<!ENTITY b SYSTEM "/etc/passwd">]><a>&b;</a>', "standard input: line 2: the entity 'b' is external"),
    ("from-xml", '<!DOCTYPE a [<!ENTITY % b SYSTEM "/etc/passwd"> %b;]><a/>', "standard input: line 1: the entity 'b' is external"),
    ("from-xml", f'<!DOCTYPE a [<!ENTITY b "{"x" * 100000}">]><a x="{"&b;" * 1000}"/>', "standard input: line 1: the entity 'b' is too long for its uses"),
    ("from-xml", f"<!DOCTYPE a [<!ATTLIST a b CDATA '{'x' * 10000}'>]><a>{'<a/>' * 1000}</a>", "standard input: line 1: the defaults of attributes are too long for their uses"),
    ("from-xml", "<a>" * 100000, "standard input: line 1: a tree of more than 10000 nodes"),
    ("from-xml", "<a>" + "<b/>\n" * 100000, "standard input: line 4999: a tree of more than 10000 nodes"),
    ("from-xml", " " * 8388609, "standard input: longer than 8388608 bytes"),
    ("to-xml", "a(_ _)\na", "line 2: a document is one element, and nothing follows it"),
    ("to-xml", "a(_ b(_ _))", "line 1: a document is one element, and nothing follows it"),
    ("to-xml", "_", "line 1: a document is one element, and nothing follows it"),
    ("to-xml", "a(b _)", "line 1: the label 'b' has 0 children: an element has two, and '$text' one"),
    ("to-xml", "a(_(_) _)", "line 1: the label '_' has 1 children: an element has two, and '$text' one"),
    ("to-xml", "a($text($text(_)) _)", "line 1: two runs of text side by side"),
    ("to-xml", "$text(_ _)", "line 1: the label '$text' is no name of XML"),
    ("to-xml", '"a b"(_ _)', "line 1: the label 'a b' is no name of XML"),
    ("to-xml", '"a x=\'1\'"(_ _)', "line 1: the label 'a x='1'' is no name of XML"),
    ("to-xml", "a:b(_ _)", "line 1: the label 'a:b' is no name of XML"),
    ("to-xml", "{a(_ _)", "line 1: the label '{a' is no name of XML"),
    ("to-xml", '"{\1}a"(_ _)', "line 1: the label '{\1}a' is no name of XML"),
    ("to-xml", "\xff(_ _)", "line 1: a label that is not UTF-8"),
    ("to-xml", "a(_ _", "line 1: bad tree"),
    ("from-relaxng", "", "standard input: line 1: no element found"),
    ("from-relaxng", "<a/>", "standard input: line 1: no schema of RELAX NG: its root is 'a'"),
    ("from-relaxng", schema("<text/>")[:-3], "standard input: line 1: unclosed token"),
    ("from-relaxng", schema("\n<txt/>"), "standard input: line 2: 'txt' is no pattern"),
    ("from-relaxng", schema("\n<group/>"), "standard input: line 2: 'group' without a pattern"),
    ("from-relaxng", schema("\n<element/>"), "standard input: line 2: 'element' without a name"),
    ("from-relaxng", schema(element("b c")), "standard input: line 1: 'b c' is no name"),
    ("from-relaxng", schema(element("b:c")), "standard input: line 1: the prefix 'b' is not declared"),
    ("from-relaxng", schema("<element><text/><text/></element>"), "standard input: line 1: 'text' is no name class"),
    ("from-relaxng", schema("<ref/>"), "standard input: line 1: 'ref' without 'name'"),
    ("from-relaxng", schema('<ref name="b"/>'), "standard input: line 1: 'b' is not defined"),
    ("from-relaxng", schema('<parentRef name="b"/>'), "standard input: line 1: 'parentRef' without a grammar around it"),
    ("from-relaxng", schema('<ref name="b"/>', '<define name="b"><ref name="b"/></define>'), "standard input: line 1: 'b' refers to itself without an element between"),
    ("from-relaxng", schema('<ref name="b"/>', '<define name="b"><text/></define>\n<define name="b"><text/></define>'), "standard input: line 2: a second 'define' of the same name, and no 'combine'"),
    ("from-relaxng", schema('<ref name="b"/>', '<define name="b" combine="both"><text/></define>'), "standard input: line 1: 'combine' must be choice everywhere, or interleave"),
    ("from-relaxng", f"<grammar {RNG}/>", "standard input: line 1: a grammar without a start"),
    ("from-relaxng", f"<grammar {RNG}><start><text/><text/></start></grammar>", "standard input: line 1: 'start' with more than one pattern"),
    ("from-relaxng", f"<grammar {RNG}><start><text/></start></grammar>", "standard input: line 1: the start is not one element"),
    ("from-relaxng", schema("<text/>", '<include href="no.rng"/>'), "standard input: line 1: 'no.rng' cannot be read: No such file or directory"),
    ("from-relaxng", schema('<externalRef href="http://localhost/a.rng"/>'), "standard input: line 1: 'http://localhost/a.rng' is no file"),
    ("from-relaxng", BOMB, "standard input: line 1: the entity 'e14' is too long for its uses"),
    ("from-relaxng", f'<!DOCTYPE grammar [<!ENTITY a SYSTEM "a.rng">]>{schema("&a;")}', "standard input: line 1: the entity 'a' is external"),
    ("from-relaxng", schema("<group>" * 20000 + "<text/>" + "</group>" * 20000), "standard input: the patterns are nested too deep"),
    ("from-relaxng", schema("<optional/>" * 200001), "standard input: line 1: more than 200000 elements"),
    ("from-relaxng", schema('<ref name="0"/>', "".join(f'<define name="{it}"><ref name="{it + 1}"/><ref name="{it + 1}"/></define>' for it in range(30)) + f'<define name="30">{element("b")}</define>'), "standard input: the schema makes too many patterns"),
    ("from-relaxng", schema("".join(f"<optional>{element(f'b{it}')}</optional>" for it in range(2000))), "standard input: the grammar is longer than 8388608 bytes"),
]

# Files of one folder.
FILES = {
    "one.rng": schema('<ref name="b"/><optional><ref name="c"/></optional>', f'<define name="b">{element("b")}</define><div><define name="c">{element("c", DATA)}</define></div>'),
    "two.rng": f'<grammar {RNG}><include href="one.rng"><define name="c"><attribute name="d"/>{element("d")}</define></include></grammar>',
    "three.rng": f'<element name="a" ns="u" {RNG}><externalRef href="./two.rng"/><externalRef href="part.rng"/></element>',
    "part.rng": element("p").replace("<element", f"<element {RNG}", 1),
    "any.rng": f'<element name="a" {RNG}><zeroOrMore><element><anyName><except><name>e</name></except></anyName><text/></element></zeroOrMore></element>',
    "none.rng": schema(f'<choice><group><attribute name="d"><notAllowed/></attribute>{element("b")}</group>{element("c")}</choice>'),
    "spare.rng": f'<grammar {RNG}><include href="one.rng"><define name="no"><text/></define></include></grammar>',
    "loop.rng": f'<grammar {RNG}><include href="one.rng"/><include href="loop.rng"/></grammar>',
    "compact.rnc": "element a { element b { text }* }\n",
    "wrong.rnc": "element a { \n",
    "good.xml": "<a><b/></a>",
    "other.xml": "<a><e/>\n<f/></a>\n",
    "bad.xml": "<a>\n<b></a>",
}

# The words of a command over these files, its output, and its messages.
RUNS = [
    ("from-relaxng one.rng", grammar("s0 -> a(s1 s2)", "s1 -> b(s2 s3)", "s2 -> _", "s3 -> _", "s3 -> c(s4 s2)", "s4 -> $text(s5)", "s4 -> _", "s5 -> _"), "from-relaxng: left out: 1 datatype\n"),
    ("from-relaxng two.rng", grammar("s0 -> a(s1 s2)", "s1 -> b(s2 s3)", "s2 -> _", "s3 -> _", "s3 -> d(s2 s2)"), "from-relaxng: left out: 1 attribute\n"),
    ("from-relaxng three.rng", grammar("s0 -> {u}a(s1 s2)", "s1 -> {u}a(s3 s4)", "s2 -> _", "s3 -> {u}b(s2 s5)", "s4 -> {u}p(s2 s2)", "s5 -> _", "s5 -> {u}d(s2 s2)"), "from-relaxng: left out: 1 attribute\n"),
    ("from-relaxng any.rng", grammar("s0 -> a(s1 s2)", "s1 -> *(s3 s1)", "s1 -> _", "s1 -> a(s3 s1)", "s1 -> {*}*(s3 s1)", "s2 -> _", "s3 -> $text(s4)", "s3 -> _", "s4 -> _"), "from-relaxng: the schema has wildcards: convert documents with tools/from-xml --names SCHEMA\n"),
    ("from-relaxng none.rng", grammar("s0 -> a(s1 s2)", "s1 -> c(s2 s2)", "s2 -> _"), "from-relaxng: left out: 1 attribute\n"),
    ("from-xml good.xml other.xml", "a(b(_ _) _)\na(e(_ f(_ _)) _)\n", ""),
    ("from-xml --names any.rng good.xml other.xml", "a(*(_ _) _)\na(e(_ *(_ _)) _)\n", ""),
    ("from-xml --names any.rng --names one.rng good.xml", "a(b(_ _) _)\n", ""),
    ("from-xml good.xml bad.xml", None, "from-xml: bad.xml: line 2: mismatched tag\n"),
    ("from-xml good.xml no.xml", None, "from-xml: no.xml: No such file or directory\n"),
    ("from-xml --names good.xml good.xml", None, "from-xml: good.xml: line 1: no schema of RELAX NG: its root is 'a'\n"),
    ("from-xml --name any.rng good.xml", None, "usage: tools/from-xml [--names SCHEMA]... [FILE...]\n"),
    ("to-xml good.xml bad.xml", None, "usage: tools/to-xml [FILE]\n"),
    ("from-relaxng one.rng two.rng", None, "usage: tools/from-relaxng [--names SCHEMA]... [SCHEMA]\n"),
    ("from-relaxng .", None, "from-relaxng: .: Is a directory\n"),
    ("from-relaxng spare.rng", None, "from-relaxng: spare.rng: line 1: the included file has no 'no' to override\n"),
    ("from-relaxng loop.rng", None, "from-relaxng: loop.rng: line 1: 'loop.rng' includes itself\n"),
    ("from-relaxng no.rnc", None, "from-relaxng: no.rnc: No such file or directory\n"),
]
NO_TRANG = ("from-relaxng compact.rnc", None, "from-relaxng: compact.rnc: a compact schema needs trang, which is not installed (in Debian the package trang)\n")


def try_files(run, fail):
    """Tests runs over files, those of compact schemas without trang and, where it is there, with
    it."""
    with tempfile.TemporaryDirectory() as folder:
        write(folder, FILES)
        for words, wanted, told in [*RUNS, NO_TRANG]:
            got = run(words, "", folder, told == NO_TRANG[2])
            if got != (wanted is None, wanted or "", told):
                fail(f"{words} gives {got}")
        if shutil.which("trang"):
            good, wrong = run("from-relaxng compact.rnc", "", folder), run("from-relaxng wrong.rnc", "", folder)
            if good != (0, grammar("s0 -> a(s1 s2)", "s1 -> _", "s1 -> b(s3 s1)", "s2 -> _", "s3 -> $text(s4)", "s3 -> _", "s4 -> _"), ""):
                fail(f"a compact schema gives {good}")
            if wrong[:2] != (1, "") or wrong[2].count("\n") != 1 or "wrong.rnc: trang refuses it: " not in wrong[2]:
                fail(f"a compact schema with a fault gives {wrong}")


class Dice(random.Random):
    """Random documents. An element is a namespace, a name, and a list of elements and texts (None),
    of which no two are side by side."""

    def names(self):
        return self.choice(["", "", "u", "v#w"]), self.choice(["a", "b", "c-1", "_", "d.e", "\xe9"])

    def items(self, depth):
        made = []
        for _ in range(self.choice([0, 1, 1, 2, 3]) if depth else 0):
            is_text = self.random() < 0.4 and (not made or made[-1] is not None)
            made.append(None if is_text else (*self.names(), self.items(depth - 1)))
        return made


def written(item, outer=""):
    """Returns an item as tools/to-xml writes it."""
    if item is None:
        return "text"
    namespace, name, items = item
    start = name if namespace == outer else f'{name} xmlns="{namespace}"'
    inner = "".join(written(it, namespace) for it in items)
    return f"<{start}>{inner}</{name}>" if inner else f"<{start}/>"


def disguised(dice, item):
    """Returns an item in other bytes that have the same tree."""
    if item is None:
        return dice.choice(TEXTS)
    namespace, name, items = item
    prefix = dice.choice(["p:", "q:"]) if namespace else ""
    declared = f'xmlns:{prefix[:1]}="{namespace}"' if namespace else 'xmlns=""'
    blank = lambda: dice.choice(["", "", " ", "\n\t", "<!-- a -->", "<?a b?>", "<![CDATA[ ]]>"])
    inner = blank() + "".join(disguised(dice, it) + blank() for it in items)
    return f"<{prefix}{name} {declared} c='{dice.choice(TEXTS[:2])}'>{inner}</{prefix}{name}>"


def try_documents(run, fail, count=200):
    """Tests that documents are restored, and that only their elements and texts count."""
    dice, documents = Dice(11), []
    with tempfile.TemporaryDirectory() as folder:
        for number in range(count):
            document = (*dice.names(), dice.items(4))
            documents.append(written(document) + "\n")
            write(folder, {f"plain{number}": documents[-1], f"other{number}": disguised(dice, document)})
        trees = run(" ".join(["from-xml", *(f"plain{it}" for it in range(count))]), "", folder)
        others = run(" ".join(["from-xml", *(f"other{it}" for it in range(count))]), "", folder)
    if trees[0] or trees != others:
        fail(f"from-xml does not make the same trees of documents in other bytes: {trees[2]} {others[2]}")
    if run("to-xml", trees[1]) != (0, "".join(documents).encode().decode("latin-1"), ""):
        fail("from-xml and to-xml do not restore documents")


class SchemaDice(Dice):
    """Random schemas, as patterns: a kind, and its parts or what it names."""

    NAMES = ("a", "b", "c", "d")

    def name_class(self, depth=2):
        if self.random() < 0.7 or not depth:
            return ("name", self.choice(["", "", "u"]), self.choice(self.NAMES))
        but = [self.name_class(0) for _ in range(self.choice([0, 1, 1, 2]))]
        return self.choice([("any", but), ("namespace", self.choice(["", "u"]), but), ("either", [self.name_class(depth - 1), self.name_class(0)])])

    def pattern(self, depth):
        kind = self.choice(["text", "empty", "ref", "ref", "ref", "data", "attribute"] if not depth else ["group", "choice", "interleave", "optional", "zeroOrMore", "oneOrMore", "mixed", "ref", "notAllowed"])
        if kind == "ref":
            return (kind, self.randrange(4))
        many = {"group": 2, "choice": 2, "interleave": 2, "optional": 1, "zeroOrMore": 1, "oneOrMore": 1, "mixed": 1}.get(kind, 0)
        return (kind, *(self.pattern(self.randrange(depth)) for _ in range(many)))

    def schema(self):
        """Returns four elements, each with its names and content; the first is that of documents."""
        return [(self.name_class(), self.pattern(3)) for _ in range(4)]

    def children(self, schema, pattern, depth):
        """Returns children that a pattern may have, or nearly so."""
        kind, *parts = pattern
        if kind in ("text", "mixed") and self.random() < 0.5:
            return [None]
        if kind == "ref":
            return [self.one(schema, parts[0], depth - 1)] if depth else []
        if kind == "choice":
            parts = [self.choice(parts)]
        if kind == "optional" and self.random() < 0.5:
            parts = []
        if kind in ("zeroOrMore", "oneOrMore"):
            parts = parts * self.choice([0, 1, 1, 2])
        lists = [self.children(schema, it, depth) for it in parts if isinstance(it, tuple)]
        if kind == "interleave":
            self.shuffle(lists)
        return [it for items in lists for it in items]

    def one(self, schema, number, depth):
        """Returns an element that the numbered one may be, or nearly so."""
        names, content = schema[number]
        namespace, name = names[1:] if names[0] == "name" else (self.choice(["", "u", "w"]), self.choice([*self.NAMES, "e"]))
        items = self.children(schema, content, depth)
        if items and self.random() < 0.1:
            items.insert(self.randrange(len(items)), self.choice([None, items[-1]]))
        if items and self.random() < 0.05:
            items.pop(self.randrange(len(items)))
        return namespace, name, tuple(it for place, it in enumerate(items) if it is not None or not place or items[place - 1] is not None)


def names_written(names):
    """Returns a name class as a schema has it."""
    if names[0] == "name":
        return f'<name ns="{names[1]}">{names[2]}</name>'
    inner = "".join(map(names_written, names[-1]))
    if names[0] == "either":
        return f"<choice>{inner}</choice>"
    start = "anyName" if names[0] == "any" else f'nsName ns="{names[1]}"'
    return f"<{start}>{f'<except>{inner}</except>' if inner else ''}</{start.split()[0]}>"


def pattern_written(pattern):
    """Returns a pattern as a schema has it."""
    kind, *parts = pattern
    if kind == "ref":
        return f'<ref name="e{parts[0]}"/>'
    if kind in ("data", "attribute"):
        return f"<{kind} {'type' if kind == 'data' else 'name'}='x'/>"
    return f"<{kind}>{''.join(map(pattern_written, parts))}</{kind}>"


def schema_written(elements):
    defined = (f'<define name="e{number}"><element>{names_written(names)}{pattern_written(content)}</element></define>' for number, (names, content) in enumerate(elements))
    return f'<grammar {RNG}><start><ref name="e0"/></start>{"".join(defined)}</grammar>'


def is_named(names, namespace, name):
    """Says whether a name class has a name."""
    if names[0] == "name":
        return names[1:] == (namespace, name)
    found = any(is_named(it, namespace, name) for it in names[-1])
    return found if names[0] == "either" else not found and (names[0] == "any" or names[1] == namespace)


def judge(elements):
    """Returns the judgement of a schema: a function of a number and an element."""

    @functools.lru_cache(maxsize=None)
    def has(pattern, items):
        kind, *parts = pattern
        if kind in ("text", "data"):
            return all(it is None for it in items)
        if kind in ("empty", "attribute"):
            return not items
        if kind == "ref":
            return len(items) == 1 and is_valid(parts[0], items[0])
        if kind == "choice":
            return any(has(it, items) for it in parts)
        if kind in ("group", "interleave", "mixed"):
            first, second = parts if kind != "mixed" else (("text",), *parts)
            cuts = range(len(items) + 1) if kind == "group" else range(2 ** len(items))
            chosen = (lambda cut, it: it < cut) if kind == "group" else lambda cut, it: cut >> it & 1
            split = lambda cut, wanted: tuple(it for place, it in enumerate(items) if bool(chosen(cut, place)) == wanted)
            return any(has(first, split(cut, True)) and has(second, split(cut, False)) for cut in cuts)
        if kind in ("optional", "zeroOrMore") and not items:
            return True
        if kind == "notAllowed":
            return False
        more = range(1, len(items)) if kind != "optional" else ()
        return has(parts[0], items) or any(has(parts[0], items[:cut]) and has(pattern, items[cut:]) for cut in more)

    def is_valid(number, item):
        return item is not None and is_named(elements[number][0], *item[:2]) and has(elements[number][1], item[2])

    return is_valid


def has_run(rules, tree):
    """Says whether a tree has a run, by the rules of a grammar: the states of each label and list of
    states."""
    below, rest = {}, [(tree, False)]
    while rest:
        it, is_ready = rest.pop()
        if not is_ready:
            rest.append((it, True))
            rest.extend((child, False) for child in it.below)
            continue
        below[id(it)] = {state for state, children in rules.get(it.label.text, []) if len(children) == len(it.below) and all(child in below[id(under)] for child, under in zip(children, it.below))}
    return "s0" in below[id(tree)]


def tool(name):
    """Returns the module of a converter."""
    loader = SourceFileLoader(name.replace("-", "_"), os.path.join(TOOLS, name))
    module = module_from_spec(spec_from_loader(loader.name, loader))
    loader.exec_module(module)
    return module


def write(folder, files):
    """Writes files, each a name with its text, into a folder."""
    for name, text in files.items():
        with open(os.path.join(folder, name), "w", encoding="utf-8") as it:
            it.write(text)


class Judge:
    """Judges documents by the grammar of a schema, which it keeps as text."""

    from_relaxng, from_xml = tool("from-relaxng"), tool("from-xml")

    def __init__(self, path):
        schema = Schema(path)
        self.label = Alphabet([schema]).label_in_document
        self.grammar = "".join(f"{line}\n" for line in self.from_relaxng.lines(schema, []))
        self.rules = {}
        for _, left, right, _ in rules_of(self.grammar)[1]:
            self.rules.setdefault(right.label.text, []).append((left[0].text, [it.label.text for it in right.below]))

    def judgements(self, documents, weigh=None):
        """Returns for each document whether it is valid: by the rules, or by the program."""
        trees = [self.from_xml.tree_of_document("it", it.encode(), self.label) for it in documents]
        if weigh:
            return ["# none" not in it for it in weigh(self.grammar, "".join(f"{it}\n" for it in trees)).splitlines()]
        return [has_run(self.rules, tree_of(tokens_of(it, 1), 1)) for it in trees]


def try_features(fail):
    """Tests schemas with one feature each. Returns how many documents are valid, and how many are
    not."""
    counts = [0, 0]
    with tempfile.TemporaryDirectory() as folder:
        write(folder, tib_schema_rows.PARTS)
        for schema_text, valid in tib_schema_rows.SCHEMAS:
            write(folder, {"schema.rng": schema_text})
            judgements = Judge(os.path.join(folder, "schema.rng")).judgements(tib_schema_rows.DOCUMENTS)
            for place, is_valid in enumerate(judgements):
                counts[not is_valid] += 1
                if is_valid != (place in valid):
                    fail(f"{schema_text} and {tib_schema_rows.DOCUMENTS[place]}: {is_valid}")
    return counts


def try_schemas(fail, weigh, count=150):
    """Tests that grammars of random schemas judge documents as the second opinion does; `weigh` is
    the program, or None. Returns how many documents are valid, and how many are not."""
    dice, counts = SchemaDice(13), [0, 0]
    with tempfile.TemporaryDirectory() as folder:
        for number in range(count):
            elements = dice.schema()
            write(folder, {"schema.rng": schema_written(elements)})
            documents = [dice.one(elements, 0, 4) for _ in range(20)]
            judged = Judge(os.path.join(folder, "schema.rng")).judgements(map(written, documents), weigh if number % 10 == 0 else None)
            for document, has in zip(documents, judged, strict=True):
                is_valid = judge(elements)(0, document)
                counts[not is_valid] += 1
                if is_valid != has:
                    fail(f"{schema_written(elements)} and {written(document)}: {has}, and not {is_valid}")
    return counts

"""Reads RELAX NG schemas (ISO/IEC 19757-2, the XML syntax) as patterns over elements and text.

Attributes are left out, and a datatype is read as text. A compact schema (.rnc) is turned into the
XML syntax by trang, where it is installed. Of the restrictions of the standard only those are
checked without which a schema has no meaning here. The module proves nothing.
"""
import collections
import os
import subprocess
import sys
import tempfile
import urllib.parse

from tib_patterns import Patterns
from tib_xml import BLANK, OTHER, STANDARD_INPUT, XmlFault, bytes_of, is_name, label_of, parse

RELAXNG = "http://relaxng.org/ns/structure/1.0"
XML = "http://www.w3.org/XML/1998/namespace"
MOST_ELEMENTS, MOST_FILES, DEEPEST = 200_000, 1_000, 3_000
SECONDS = 120
# The name of a grammar's start among its definitions, which no definition has.
START = None


class Node:
    """An element of a schema. `namespace` is that of the prefix of its name, where it has one."""

    __slots__ = ("tag", "attributes", "children", "pieces", "text", "namespace", "file", "line")

    def __init__(self, tag, attributes, file, line):
        self.tag, self.attributes, self.file, self.line = tag, attributes, file, line
        self.children, self.pieces, self.text, self.namespace = [], [], "", None

    def fault(self, reason):
        return XmlFault(self.file.shown, self.line, reason)

    def needed(self, name):
        """Returns the text of an attribute that must be there."""
        if name not in self.attributes:
            raise self.fault(f"'{self.tag}' without '{name}'")
        return self.attributes[name].strip(BLANK)


# A file of a schema: its path, None for standard input, and what messages call it.
File = collections.namedtuple("File", "path shown")
# Where a pattern is: the grammar around it, the namespace of names without a prefix, and the paths
# of the files that are being read.
Place = collections.namedtuple("Place", "grammar namespace files")
# The names that an element may have. The kind is 'name', 'choice' of the parts, 'any' name or any
# of a 'namespace', both without those of the parts.
NameClass = collections.namedtuple("NameClass", "kind namespace local parts")
# An element: its names, its content, and where the content is.
Element = collections.namedtuple("Element", "name_class node place skip")


class Reader:
    """The elements of RELAX NG in a file; all other elements are left out with what is in them."""

    def __init__(self, file):
        self.file, self.root, self.open, self.count, self.skipped = file, None, [], 0, 0
        self.prefixes = collections.defaultdict(list, xml=[XML])

    def declare(self, prefix, namespace):
        self.prefixes[prefix or ""].append(namespace or "")

    def forget(self, prefix):
        self.prefixes[prefix or ""].pop()

    def start(self, tag, attributes):
        namespace, local = tag
        if self.skipped or namespace != RELAXNG:
            if not self.open:
                raise ValueError(f"no schema of RELAX NG: its root is '{local}'")
            self.skipped += 1
            return
        self.count += 1
        if self.count > MOST_ELEMENTS:
            raise ValueError(f"more than {MOST_ELEMENTS} elements")
        if (XML, "base") in attributes:
            raise ValueError("xml:base is not supported")
        own = {name: text for (namespace, name), text in attributes.items() if not namespace}
        node = Node(local, own, self.file, self.line())
        if self.open:
            self.open[-1].children.append(node)
        else:
            self.root = node
        self.open.append(node)

    def end(self):
        if self.skipped:
            self.skipped -= 1
            return
        node = self.open.pop()
        node.text = "".join(node.pieces)
        prefix, found, _ = node.attributes.get("name", node.text).strip(BLANK).partition(":")
        if found and self.prefixes[prefix]:
            node.namespace = self.prefixes[prefix][-1]

    def text(self, piece):
        if self.open and not self.skipped:
            self.open[-1].pieces.append(piece)


class Files:
    """The files of a schema, each read once."""

    def __init__(self):
        self.roots, self.links, self.folder = {}, 0, None

    def read(self, file):
        if file.path not in self.roots:
            reader = Reader(file)
            parse(file.shown, bytes_of(file.path, file.shown), reader)
            self.roots[file.path] = reader.root
        return self.roots[file.path]

    def first(self, path):
        """Returns the root of the schema's first file."""
        if path is not None and path.endswith(".rnc"):
            return self.read(File(self.from_compact(path), f"{path}, by trang"))
        return self.read(File(path, path or STANDARD_INPUT))

    def from_compact(self, path):
        """Returns the path of what trang makes of a compact schema, in a folder of its own."""
        bytes_of(path)
        # (the folder is removed when the program ends)
        self.folder = tempfile.TemporaryDirectory()
        made = os.path.join(self.folder.name, "schema.rng")
        words = ["trang", "-I", "rnc", "-O", "rng", os.path.abspath(path), made]
        try:
            ran = subprocess.run(words, stdin=subprocess.DEVNULL, capture_output=True, timeout=SECONDS, check=False)
        except FileNotFoundError:
            raise XmlFault(path, None, "a compact schema needs trang, which is not installed (in Debian the package trang)") from None
        except subprocess.TimeoutExpired:
            raise XmlFault(path, None, f"trang does not end within {SECONDS} seconds") from None
        if ran.returncode or not os.path.exists(made):
            told = (ran.stderr + ran.stdout).decode("utf-8", "replace").strip().splitlines()
            raise XmlFault(path, None, f"trang refuses it: {told[0] if told else 'it says nothing'}")
        return made

    def linked(self, node, place):
        """Returns the root of the file that an include or an externalRef names."""
        self.links += 1
        if self.links > MOST_FILES:
            raise node.fault(f"more than {MOST_FILES} files are included")
        href = node.needed("href")
        found = urllib.parse.urlsplit(href)
        path = urllib.parse.unquote(found.path)
        if found.scheme not in ("", "file") or found.netloc or not path or "\0" in path:
            raise node.fault(f"'{href}' is no file")
        path = os.path.normpath(os.path.join(os.path.dirname(node.file.path or ""), path))
        if path in place.files:
            raise node.fault(f"'{href}' includes itself")
        shown = path
        if self.folder and path.startswith(self.folder.name):
            shown = f"{os.path.basename(path)}, by trang"
        try:
            return self.read(File(path, shown))
        except OSError as error:
            raise node.fault(f"'{href}' cannot be read: {error.strerror}") from None


class Grammar:
    """The definitions of a grammar: for each name the nodes that define it, and their places."""

    def __init__(self, parent):
        self.parent, self.definitions = parent, collections.defaultdict(list)


def place_in(node, place):
    """Returns the place of what is in a node."""
    return place._replace(namespace=node.attributes["ns"]) if "ns" in node.attributes else place


def names_in(node):
    """Returns the names that the children of a node define."""
    names, rest = set(), list(node.children)
    while rest:
        it = rest.pop()
        if it.tag == "div":
            rest.extend(it.children)
        elif it.tag in ("start", "define"):
            names.add(START if it.tag == "start" else it.needed("name"))
    return names


def name_of(text, node, place):
    """Returns the namespace and the local name that a text of a node names."""
    prefix, found, local = text.strip(BLANK).rpartition(":")
    if not is_name(local) or found and not is_name(prefix):
        raise node.fault(f"'{text.strip(BLANK)}' is no name")
    if found and node.namespace is None:
        raise node.fault(f"the prefix '{prefix}' is not declared")
    return node.namespace if found else place.namespace, local


def name_class_of(node, place):
    """Returns the names that a name class admits."""
    place = place_in(node, place)
    if node.tag == "name":
        return NameClass("name", *name_of(node.text, node, place), ())
    if node.tag == "choice":
        return NameClass("choice", None, None, tuple(name_class_of(it, place) for it in node.children))
    if node.tag not in ("anyName", "nsName"):
        raise node.fault(f"'{node.tag}' is no name class")
    for it in node.children:
        if it.tag != "except":
            raise it.fault(f"'{it.tag}' in '{node.tag}'")
    parts = tuple(name_class_of(it, place_in(outer, place)) for outer in node.children for it in outer.children)
    if node.tag == "anyName":
        return NameClass("any", None, None, parts)
    return NameClass("namespace", place.namespace, None, parts)


def admits(name_class, namespace, local):
    """Says whether a class admits a name. Where `local` is None the name is one of the namespace
    that no schema names, and where the namespace is None it is in one that no schema names."""
    if name_class.kind == "name":
        return (name_class.namespace, name_class.local) == (namespace, local)
    among_parts = any(admits(it, namespace, local) for it in name_class.parts)
    if name_class.kind == "choice":
        return among_parts
    return not among_parts and (name_class.kind == "any" or name_class.namespace == namespace)


class Schema:
    """A schema: its patterns, that of its start, and for each element its names and its content.
    Raises an XmlFault where the files cannot be read as one."""

    def __init__(self, path=None):
        self.shown = path or STANDARD_INPUT
        self.patterns, self.files, self.known = Patterns(), Files(), {}
        self.elements, self.contents, self.left_out = [], [], collections.Counter()
        sys.setrecursionlimit(max(sys.getrecursionlimit(), DEEPEST))
        root = self.files.first(path)
        try:
            self.start = self.pattern(root, Place(None, "", (root.file.path,)))
            for element in self.elements:
                self.contents.append(self.sequence(self.parts_of(element.node, element.place, element.skip)))
            self.check_start(root)
        except (ValueError, RecursionError) as error:
            raise self.fault(error) from None

    def fault(self, error):
        """Returns the fault of a schema whose patterns are too many or nested too deep."""
        return XmlFault(self.shown, None, "the patterns are nested too deep" if isinstance(error, RecursionError) else error)

    def check_start(self, root):
        rest_of = [rest for symbol, rest in self.patterns.moves_of(self.start) if symbol.kind == "element"]
        text = any(symbol.kind == "text" for symbol, _ in self.start.moves)
        if self.start.is_nullable or text or any(rest is not self.patterns.empty for rest in rest_of):
            raise root.fault("the start is not one element")

    def sequence(self, parts):
        whole = self.patterns.empty
        for part in reversed(parts):
            whole = self.patterns.group(part, whole)
        return whole

    def parts_of(self, node, place, skip=0):
        """Returns the patterns of the children of a node."""
        if len(node.children) <= skip:
            raise node.fault(f"'{node.tag}' without a pattern")
        return [self.pattern(it, place) for it in node.children[skip:]]

    def pattern(self, node, place):
        """Returns the pattern of a node."""
        place = place_in(node, place)
        if node.tag in ("group", "choice", "interleave", "optional", "zeroOrMore", "oneOrMore", "mixed"):
            return self.combined(node.tag, self.parts_of(node, place))
        special = {
            "element": self.element,
            "attribute": self.attribute,
            "ref": self.reference,
            "parentRef": self.reference,
            "grammar": self.nested,
            "externalRef": self.external,
        }.get(node.tag)
        return special(node, place) if special else self.leaf(node)

    def combined(self, tag, parts):
        if tag == "choice":
            return self.patterns.choice(parts)
        if tag == "interleave":
            return self.patterns.interleave(parts)
        whole = self.sequence(parts)
        if tag == "mixed":
            return self.patterns.interleave([self.patterns.text, whole])
        if tag in ("zeroOrMore", "oneOrMore"):
            whole = self.patterns.repeat(whole)
        return self.patterns.optional(whole) if tag in ("optional", "zeroOrMore") else whole

    def leaf(self, node):
        if node.tag in ("data", "value", "list"):
            self.left_out["datatype"] += 1
            return self.patterns.text
        found = {"text": self.patterns.text, "empty": self.patterns.empty, "notAllowed": self.patterns.none}.get(node.tag)
        if found is None:
            raise node.fault(f"'{node.tag}' is no pattern")
        return found

    def element(self, node, place):
        key = (node, place.grammar, place.namespace)
        if key not in self.known:
            if "name" in node.attributes:
                names, skip = NameClass("name", *name_of(node.attributes["name"], node, place), ()), 0
            elif node.children:
                names, skip = name_class_of(node.children[0], place), 1
            else:
                raise node.fault("'element' without a name")
            self.known[key] = self.patterns.element(len(self.elements))
            self.elements.append(Element(names, node, place, skip))
        return self.known[key]

    def attribute(self, node, place):
        """Returns the empty pattern, or none where the attribute may have no value."""
        before = self.left_out["datatype"]
        content = node.children["name" not in node.attributes :]
        value = self.sequence([self.pattern(it, place) for it in content])
        self.left_out["datatype"] = before
        self.left_out["attribute"] += 1
        return self.patterns.none if value is self.patterns.none else self.patterns.empty

    def reference(self, node, place):
        grammar = place.grammar
        if node.tag == "parentRef":
            grammar = grammar and grammar.parent
        if grammar is None:
            raise node.fault(f"'{node.tag}' without a grammar around it")
        return self.definition(grammar, node.needed("name"), node)

    def definition(self, grammar, name, node):
        """Returns the pattern that a name has in a grammar."""
        key = (grammar, name)
        if key not in self.known:
            if name not in grammar.definitions:
                raise node.fault("a grammar without a start" if name is START else f"'{name}' is not defined")
            self.known[key] = None
            self.known[key] = self.joined(grammar.definitions[name])
        if self.known[key] is None:
            raise node.fault("the start refers to itself" if name is START else f"'{name}' refers to itself without an element between")
        return self.known[key]

    def joined(self, definitions):
        """Returns the pattern of all definitions of one name."""
        alone = [node for node, _ in definitions if "combine" not in node.attributes]
        ways = {node.attributes["combine"] for node, _ in definitions if "combine" in node.attributes}
        last = definitions[-1][0]
        if len(alone) > 1:
            raise alone[1].fault(f"a second '{last.tag}' of the same name, and no 'combine'")
        if len(ways) > 1 or not ways <= {"choice", "interleave"}:
            raise last.fault("'combine' must be choice everywhere, or interleave")
        parts = [self.sequence(self.parts_of(node, place)) for node, place in definitions]
        return parts[0] if len(parts) == 1 else self.combined(*ways, parts)

    def nested(self, node, place):
        """Returns the pattern of a grammar: that of its start."""
        grammar = Grammar(place.grammar)
        self.load(node, grammar, place._replace(grammar=grammar), frozenset())
        return self.definition(grammar, START, node)

    def load(self, node, grammar, place, overridden):
        """Adds the definitions in a node to a grammar but for those of the overridden names, and
        returns the names of all."""
        names = set()
        for child in node.children:
            inside = place_in(child, place)
            if child.tag == "div":
                names |= self.load(child, grammar, inside, overridden)
            elif child.tag in ("start", "define"):
                name = START if child.tag == "start" else child.needed("name")
                if name is START and len(child.children) > 1:
                    raise child.fault("'start' with more than one pattern")
                names.add(name)
                if name not in overridden:
                    grammar.definitions[name].append((child, inside))
            elif child.tag == "include":
                names |= self.include(child, grammar, inside, overridden)
            else:
                raise child.fault(f"'{child.tag}' in a grammar")
        return names

    def include(self, node, grammar, place, overridden):
        """Adds the definitions of another file but for those that the node defines anew."""
        root = self.files.linked(node, place)
        if root.tag != "grammar":
            raise node.fault("the included file is no grammar")
        inside = place_in(root, place._replace(files=(*place.files, root.file.path)))
        own = names_in(node)
        found = self.load(root, grammar, inside, overridden | own)
        for name in sorted(own - found, key=str):
            raise node.fault(f"the included file has no {'start' if name is START else repr(name)} to override")
        return found | self.load(node, grammar, place, overridden)

    def external(self, node, place):
        root = self.files.linked(node, place)
        key = (root, place.grammar, place.namespace)
        if key not in self.known:
            self.known[key] = self.pattern(root, place._replace(files=(*place.files, root.file.path)))
        return self.known[key]

    def names(self):
        """Returns the names that the schema names, each a namespace and a local name, and for each
        namespace that it names as a whole this namespace and None."""
        names, rest = set(), [it.name_class for it in self.elements]
        while rest:
            it = rest.pop()
            rest.extend(it.parts)
            if it.namespace is not None:
                names.add((it.namespace, it.local))
        return names

    def has_wildcards(self):
        """Says whether an element may have a name that the schema does not name."""
        rest = [it.name_class for it in self.elements]
        while rest:
            it = rest.pop()
            if it.kind in ("any", "namespace"):
                return True
            rest.extend(it.parts)
        return False


class Alphabet:
    """The labels of elements for one or more schemas: one for each name, one for the other names of
    each namespace that they name, and one for all names of other namespaces."""

    def __init__(self, schemas):
        found = set().union(*(it.names() for it in schemas))
        self.namespaces = {namespace for namespace, _ in found}
        if OTHER in self.namespaces:
            raise schemas[0].fault(f"the namespace '{OTHER}' has no label of its own")
        self.names = {it for it in found if it[1] is not None}
        others = [(namespace, None) for namespace in sorted(self.namespaces)]
        self.letters = [*sorted(self.names), *others, (None, None)]

    def label_in_document(self, namespace, local):
        """Returns the label of an element of a document."""
        if (namespace, local) in self.names:
            return label_of(namespace, local)
        return label_of(namespace if namespace in self.namespaces else None, OTHER)

    def labels_of(self, name_class):
        """Returns the labels of the names that a class admits."""
        if name_class.kind == "name":
            return [label_of(name_class.namespace, name_class.local)]
        return [label_of(namespace, local or OTHER) for namespace, local in self.letters if admits(name_class, namespace, local)]

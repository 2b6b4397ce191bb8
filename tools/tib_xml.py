"""Reads XML for the converters, and writes its names as labels.

The parser is the standard library's expat, and nothing else is needed. It opens no other file and
no address. A document type is skipped, but its entities are looked at: an entity that is external,
refers to one that comes later, or is too long for its uses is refused. So are defaults of attributes
that are too long for their uses.

A name without a namespace is its own label. In a namespace the label is {NAMESPACE}NAME. Labels are
UTF-8, kept as str of one character a byte (latin-1) as tib_text keeps them. The module proves
nothing.
"""
import argparse
import functools
import re
import sys
from xml.parsers import expat

from tib_text import Fault

MOST_BYTES = 8_388_608
BLANK = " \t\r\n"
# The label of a run of text, and the label of 'no more siblings'.
TEXT, END = "$text", "_"
# The local name of a label for all names that a schema does not name.
OTHER = "*"
STANDARD_INPUT = "standard input"
# No document has this character, so it cannot be in a namespace.
SEPARATOR = "\x01"
REFERENCE = re.compile(r"&(?!#|(?:lt|gt|amp|quot|apos);)([^;]*)")


class XmlFault(Exception):
    """A file that cannot be converted, its line where there is one, and why."""

    def __init__(self, name, line, reason):
        where = f"line {line}: " if line else ""
        super().__init__(f"{name}: {where}{reason}")


def bytes_of(path=None, name=None):
    """Returns the bytes of a file, or of standard input; `name` is what messages call it."""
    if path is None:
        data = sys.stdin.buffer.read(MOST_BYTES + 1)
    else:
        with open(path, "rb") as it:
            data = it.read(MOST_BYTES + 1)
    if len(data) > MOST_BYTES:
        raise XmlFault(name or path or STANDARD_INPUT, None, f"longer than {MOST_BYTES} bytes")
    return data


def guard(parser, data, refuse):
    """Lets a parser refuse each entity, and each default of an attribute, that could make it read
    much more than the data."""
    uses, tags, sizes, defaults = data.count(b"&"), data.count(b"<"), {}, [0]

    def declare(entity, is_parameter, value, _base, _system, _public, notation):
        if notation is not None or is_parameter and value is not None:
            return
        if value is None:
            refuse(f"the entity '{entity}' is external")
        size = len(value.encode())
        for name in REFERENCE.findall(value):
            if name not in sizes:
                refuse(f"the entity '{entity}' refers to '{name}', which is not declared before it")
            size += sizes[name]
        if size * uses > MOST_BYTES:
            refuse(f"the entity '{entity}' is too long for its uses")
        sizes[entity] = size

    def declare_attribute(_element, attribute, _kind, default, _is_required):
        if default is not None:
            defaults[0] += len(attribute.encode()) + len(default.encode())
        if defaults[0] * tags > MOST_BYTES:
            refuse("the defaults of attributes are too long for their uses")

    parser.EntityDeclHandler = declare
    parser.AttlistDeclHandler = declare_attribute
    parser.SkippedEntityHandler = lambda entity, _: refuse(f"the entity '{entity}' is not declared in the document")
    parser.ExternalEntityRefHandler = lambda *_: refuse("an external entity")


def parse(name, data, reader):
    """Parses bytes for a reader, which has `start(tag, attributes)`, `end()` and `text(piece)`, and
    may have `declare(prefix, namespace)` and `forget(prefix)`. A tag is a namespace and a name.
    A reader raises ValueError with the reason where it refuses what it is given."""
    parser = expat.ParserCreate(namespace_separator=SEPARATOR)

    def refuse(reason):
        raise ValueError(reason)

    def tag_of(text):
        namespace, _, local = text.rpartition(SEPARATOR)
        return namespace, local

    guard(parser, data, refuse)
    parser.buffer_text = True
    parser.StartElementHandler = lambda tag, attributes: reader.start(tag_of(tag), {tag_of(it): text for it, text in attributes.items()})
    parser.EndElementHandler = lambda _: reader.end()
    parser.CharacterDataHandler = reader.text
    if hasattr(reader, "declare"):
        parser.StartNamespaceDeclHandler = reader.declare
        parser.EndNamespaceDeclHandler = reader.forget
    reader.line = lambda: parser.CurrentLineNumber
    try:
        parser.Parse(data, True)
    except expat.ExpatError as error:
        raise XmlFault(name, error.lineno, expat.errors.messages.get(error.code, "not XML")) from None
    except (ValueError, LookupError) as error:
        raise XmlFault(name, parser.CurrentLineNumber, error) from None


@functools.lru_cache(maxsize=None)
def is_name(text):
    """Says whether XML has this text as a name without a colon."""
    found, parser = [], expat.ParserCreate()
    parser.StartElementHandler = lambda tag, _: found.append(tag)
    try:
        parser.Parse(f"<{text}/>".encode(), True)
    except (expat.ExpatError, UnicodeEncodeError):
        return False
    return found == [text] and ":" not in text


def label_of(namespace, local):
    """Returns the label of a name, or of all other names: `local` is then OTHER, and the namespace
    None for all other namespaces."""
    text = f"{{{OTHER if namespace is None else namespace}}}{local}" if namespace != "" else local
    if "\n" in text:
        raise ValueError("a namespace with a line feed cannot be a label")
    return text.encode().decode("latin-1")


class OneLine(argparse.ArgumentParser):
    """Reads the words of a command line; where they are wrong it prints the usage and ends with
    status 1."""

    def error(self, message):
        self.exit(1, f"usage: {self.usage}\n")


def tell(tool, message):
    """Prints one line on standard error."""
    line = "".join(it if it.isprintable() else "?" for it in str(message))
    print(f"{tool}: {line}", file=sys.stderr)


def run(lines_of):
    """Writes the lines that a function returns, and returns the exit status. Nothing is written
    where it raises a fault."""
    tool = sys.argv[0].rpartition("/")[2]
    try:
        text = "".join(f"{line}\n" for line in lines_of())
        sys.stdout.buffer.write(text.encode("latin-1"))
        sys.stdout.buffer.flush()
    except (Fault, XmlFault) as fault:
        tell(tool, fault)
        return 1
    except OSError as error:
        tell(tool, f"{error.filename or 'standard output'}: {error.strerror}")
        return 1
    return 0

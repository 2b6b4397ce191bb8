"""Reads the worked rows of crates/tib_run_tests, for several scripts. It proves nothing."""
import glob
import re

TEXT = r'"(?:[^"\\]|\\.)*"'
NAMED = rf"{TEXT}|[A-Z_]+"


def text_of(literal, named):
    """Returns the text of a literal, or of the constant of that name."""
    if not literal.startswith('"'):
        return named[literal]
    return re.sub(r"\\(.)", lambda it: {"n": "\n", "t": "\t", "r": "\r"}.get(it.group(1), it.group(1)), literal[1:-1], flags=re.DOTALL)


def names_in(source):
    """Returns the constants of a source, each with its text."""
    return {name: text_of(literal, {}) for name, literal in re.findall(rf"const ([A-Z_]+): &str\s*=\s*({TEXT});", source)}


def sources_of_rows():
    """Returns the sources that have worked rows, by their paths."""
    sources = {}
    for name in sorted(glob.glob("crates/tib_run_tests/src/runs/*rows.rt")):
        with open(name, encoding="utf-8") as it:
            sources[name] = it.read()
    return sources


def names_of_rows(sources):
    """Returns the constants of these sources, each with its text."""
    named = {}
    for source in sources.values():
        named.update(names_in(source))
    return named

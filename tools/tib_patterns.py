"""Patterns over the children of an element, and what each may begin with.

A pattern is a regular expression with interleaving over two kinds of symbols: a run of text, and
the elements of a schema by their numbers. Its moves are its partial derivatives (Antimirov 1996):
pairs of a symbol and of a pattern for what may follow. The patterns that moves lead to are the
states of a grammar, so interleaving needs no case of its own. The module proves nothing.
"""

MOST_PARTS = 500_000


class Pattern:
    """A pattern: its kind and parts, its place in the order of creation, whether it admits the
    empty list, and its moves once they are known."""

    __slots__ = ("kind", "parts", "number", "is_nullable", "moves")

    def __init__(self, kind, parts, number, is_nullable):
        self.kind, self.parts, self.number, self.is_nullable = kind, parts, number, is_nullable
        self.moves = None


class Patterns:
    """Makes patterns, each only once: two equal patterns are one object."""

    def __init__(self):
        self.made, self.parts = {}, 0
        self.none = self.make("none", (), False)
        self.empty = self.make("empty", (), True)
        self.text = self.make("text", (), True)

    def make(self, kind, parts, is_nullable):
        key = (kind, *(it.number if isinstance(it, Pattern) else it for it in parts))
        found = self.made.get(key)
        if found is None:
            self.parts += 1 + len(parts)
            if self.parts > MOST_PARTS:
                raise ValueError("the schema makes too many patterns")
            found = self.made[key] = Pattern(kind, parts, len(self.made), is_nullable)
        return found

    def element(self, number):
        return self.make("element", (number,), False)

    def choice(self, parts):
        among = {}
        for part in parts:
            for it in part.parts if part.kind == "choice" else (part,):
                if it is not self.none:
                    among[it.number] = it
        if self.empty.number in among and any(it.is_nullable and it is not self.empty for it in among.values()):
            del among[self.empty.number]
        if len(among) < 2:
            return next(iter(among.values()), self.none)
        ordered = tuple(among[number] for number in sorted(among))
        return self.make("choice", ordered, any(it.is_nullable for it in ordered))

    def group(self, first, second):
        """Returns the first pattern and then the second; the first part of a group is no group."""
        if self.none in (first, second):
            return self.none
        parts = []
        while first.kind == "group":
            parts.append(first.parts[0])
            first = first.parts[1]
        parts.append(first)
        for part in reversed(parts):
            if second is self.empty or part is self.empty:
                second = part if second is self.empty else second
            else:
                second = self.make("group", (part, second), part.is_nullable and second.is_nullable)
        return second

    def interleave(self, parts):
        among = []
        for part in parts:
            if part is self.none:
                return self.none
            among.extend(part.parts if part.kind == "interleave" else () if part is self.empty else (part,))
        # (text twice is text)
        texts = [it for it in among if it is self.text][:1]
        among = sorted([*texts, *(it for it in among if it is not self.text)], key=lambda it: it.number)
        if len(among) < 2:
            return among[0] if among else self.empty
        return self.make("interleave", tuple(among), all(it.is_nullable for it in among))

    def repeat(self, part):
        """Returns one or more of the pattern."""
        if part in (self.none, self.empty, self.text) or part.kind == "repeat":
            return part
        return self.make("repeat", (part,), part.is_nullable)

    def optional(self, part):
        return self.choice([self.empty, part])

    def moves_of(self, pattern):
        """Returns the moves of a pattern, each once: the symbol, which is a pattern of text or of
        one element, and the pattern of what may follow."""
        if pattern.moves is None:
            pattern.moves = tuple(dict.fromkeys(self.found_moves(pattern)))
        return pattern.moves

    def found_moves(self, pattern):
        """Yields the moves of a pattern."""
        if pattern.kind == "text":
            yield pattern, pattern
        elif pattern.kind == "element":
            yield pattern, self.empty
        elif pattern.kind == "choice":
            for part in pattern.parts:
                yield from self.moves_of(part)
        elif pattern.kind == "group":
            yield from self.moves_of_group(pattern)
        elif pattern.kind == "interleave":
            for place, part in enumerate(pattern.parts):
                others = pattern.parts[:place] + pattern.parts[place + 1 :]
                for symbol, rest in self.moves_of(part):
                    yield symbol, self.interleave([*others, rest])
        elif pattern.kind == "repeat":
            part = pattern.parts[0]
            for symbol, rest in self.moves_of(part):
                yield symbol, self.group(rest, self.optional(pattern))

    def moves_of_group(self, pattern):
        """Yields the moves of a group: those of its parts up to the first that is not nullable."""
        while pattern.kind == "group":
            first, second = pattern.parts
            for symbol, rest in self.moves_of(first):
                yield symbol, self.group(rest, second)
            if not first.is_nullable:
                return
            pattern = second
        yield from self.moves_of(pattern)

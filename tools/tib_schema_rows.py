"""Schemas with one feature each, and which of some documents they admit: the judgements of jing
20220510, for tools/test-xml."""
RNG = 'xmlns="http://relaxng.org/ns/structure/1.0"'


def element(name, content="<empty/>"):
    return f'<element name="{name}">{content}</element>'


def alone(content, more=""):
    """Returns a schema of one element `a`."""
    return f'<element name="a" {more} {RNG}>{content}</element>'


def grammar(content, more=""):
    return f"<grammar {more} {RNG}>{content}</grammar>"


def define(name, content, more=""):
    return f'<define name="{name}" {more}>{content}</define>'


X = '<ref name="x"/>'
# Files that the schemas include.
PARTS = {
    "lib.rng": grammar(f'<start combine="choice">{element("r1", X)}</start>' + define("x", element("x1"), 'combine="interleave"')),
    "in.rng": grammar(f'<include href="lib.rng">{define("x", element("y"))}</include>'),
    "ext.rng": f'<choice {RNG}>{element("e1", "<text/>")}<element ns="k" name="e2"><empty/></element></choice>',
    "ref.rng": f'<ref name="q" {RNG}/>',
}
DOCUMENTS = [
    '<a xmlns="u"><outer/><inner/></a>',
    '<a xmlns="u"><inner/><outer/></a>',
    '<a xmlns="u"><outer/></a>',
    "<r1><x1/><x2/><x3/></r1>",
    "<r2><x3/><x1/><x3/><x2>t</x2><x3/></r2>",
    "<r2><x3/><x1/></r2>",
    "<r1><x1/><x2>t</x2></r1>",
    '<s xmlns="urn:p"/>',
    '<s xmlns="urn:p"><x1 xmlns="urn:q"/></s>',
    '<s xmlns="urn:p"><x1 xmlns=""/></s>',
    '<s xmlns="urn:q"/>',
    '<p:s xmlns:p="urn:p"><p:x1/></p:s>',
    '<a xmlns="z"><e1/></a>',
    '<a xmlns="z"><e1>t</e1><e2 xmlns="k"/></a>',
    '<a xmlns="z"><e1 xmlns="y"/></a>',
    '<a xmlns="z"><e1 xmlns=""/></a>',
    '<a xmlns="z"><e2/></a>',
    '<a xmlns="z"/>',
    "<a><b/></a>",
    "<a><b>t</b></a>",
    "<a/>",
    "<a> </a>",
    "<a>t</a>",
    "<a><no/></a>",
    "<a><yes/></a>",
    '<a><yes xmlns="u"/></a>',
    '<a><no xmlns="v"/><a/></a>',
    '<a><ok xmlns="u"/></a>',
    '<a><no xmlns="u"/></a>',
    '<a><a xmlns="u">t</a></a>',
    "<a><a>t</a></a>",
    "<a><b/><c/><d/></a>",
    "<a><d/><b/><e/><d/><c/></a>",
    "<a><c/><b/><d/></a>",
    "<a><b/><c/><e/></a>",
    "<a><b/><c/><d/><e/><e/></a>",
    "<a>t<b/>t</a>",
    "<a>t<b/>t<c/>t</a>",
    "<a>t<c/>t</a>",
    "<a><a/><a/></a>",
    "<a><a/></a>",
    "<a><a><a/><a/></a><a/></a>",
    "<a><b/><b/><c>t</c></a>",
    "<a><b/>t</a>",
    "<a><c/></a>",
    '<a xmlns="w"/>',
    "<b/>",
    '<b xmlns="w"/>',
    "<r1><y/></r1>",
    "<r1><z/></r1>",
    "<r1><x1/></r1>",
    "<a><b/><b/></a>",
    "<a><b/><c/><c/></a>",
    "<a><b/> <c/>\n</a>",
]
# Each schema, and the places of the documents that are valid.
SCHEMAS = [
    # a grammar in a grammar, whose patterns are those of the outer one by parentRef
    (grammar('<start><ref name="a"/></start>' + define("a", element("a", '<grammar><start><group><parentRef name="b"/><ref name="b"/></group></start>' + define("b", element("inner")) + "</grammar>")) + define("b", element("outer")), 'ns="u"'), [0]),
    # definitions of two files, combined
    (grammar(f'<include href="lib.rng"/><start combine="choice">{element("r2", X)}</start>' + define("x", element("x2", "<text/>"), 'combine="interleave"') + define("x", f"<oneOrMore>{element('x3')}</oneOrMore>")), [3, 4]),
    # an overridden start, a prefix, and a namespace for an included file
    (grammar(f'<include href="lib.rng"><start>{element("p:s", f"<optional>{X}</optional>")}</start></include>', 'xmlns:p="urn:p" ns="urn:q"'), [7, 8]),
    # definitions overridden twice
    (grammar(f'<include href="in.rng">{define("x", element("z"))}</include>'), [49]),
    # external patterns, with the namespace around them or one of their own
    (alone('<oneOrMore><externalRef href="ext.rng"/></oneOrMore>', 'ns="z"'), [12, 13]),
    (alone('<oneOrMore><externalRef ns="y" href="ext.rng"/></oneOrMore>', 'ns="z"'), [14]),
    (grammar("<start>" + element("a", '<externalRef href="ref.rng"/>') + "</start>" + define("q", element("b", "<text/>"))), [18, 19]),
    # wildcards
    (alone('<zeroOrMore><element><anyName><except><nsName ns="u"/><name>no</name></except></anyName><empty/></element></zeroOrMore>'), [18, 20, 21, 24, 26, 31, 32, 33, 34, 35, 39, 40, 44, 51, 52, 53]),
    (alone('<zeroOrMore><element><nsName ns="u"><except><name ns="u">no</name></except></nsName><text/></element></zeroOrMore>'), [20, 21, 25, 27, 29]),
    (grammar('<div ns="w"><start><choice><element><choice><name>a</name><name ns="">b</name></choice><empty/></element></choice></start></div>'), [45, 46]),
    # interleaving of a group, of repeated and of optional elements, and of text
    (alone(f"<interleave><group>{element('b')}{element('c')}</group><oneOrMore>{element('d')}</oneOrMore><optional>{element('e')}</optional></interleave>"), [31, 32]),
    (alone(f"<mixed>{element('b')}<optional>{element('c')}</optional></mixed>"), [18, 36, 37, 43, 53]),
    # what is not allowed, recursion, text or elements, lists of what may be empty
    (grammar('<start><ref name="a"/></start>' + define("a", element("a", '<choice><notAllowed/><group><ref name="a"/><ref name="a"/></group><empty/></choice>'))), [20, 21, 39, 41]),
    (alone(f"<choice><text/><oneOrMore><group>{element('b')}<optional>{element('c', '<text/>')}</optional></group></oneOrMore></choice>"), [18, 20, 21, 22, 42, 51, 53]),
    (alone(f"<oneOrMore><choice>{element('b')}<empty/></choice></oneOrMore><oneOrMore><optional>{element('c')}</optional></oneOrMore>"), [18, 20, 21, 44, 51, 52, 53]),
    # elements of other namespaces in a schema, and white space around names
    (grammar('<n:doc>text <n:b/></n:doc><start><n:x/><element name=" a "><n:y>t</n:y><zeroOrMore><element><name> b </name><empty/></element></zeroOrMore></element></start>', 'xmlns:n="note"'), [18, 20, 21, 51]),
]

"""Semantic colours of a ruleset: of each token what it is."""

from .names import uses_of
from .reading import lexed

TYPES = ("keyword", "function", "class", "property", "parameter", "variable", "number", "string", "comment", "operator")
MODIFIERS = ("declaration", "modification", "defaultLibrary", "readonly")
SORTS = {"object": "class", "slot": "property", "local": "variable", "predefined": "function", "rule": "string"}


def colours_of(document, words=()):
    """The colours as the protocol wants them: each relative to the one before it. `words` are keywords besides."""
    tokens, comments, _ = lexed(document.source.text)
    uses = {one.begin: one for one in document.keep("uses", lambda: uses_of(tokens))}
    found = [(one.begin, one.end, "comment", 0) for one in comments]
    for token in tokens:
        use = uses.get(token.begin)
        marks = 0
        if token.kind == "name" and token.text in words:
            sort = "keyword"
        elif use:
            sort = SORTS.get(use.sort, use.sort)
            marks = use.makes | use.sets << 1 | (use.sort == "predefined") << 2
        elif token.kind == "mark":
            sort = "keyword" if token.text[0].isalpha() else "operator"
        else:
            sort = {"name": "variable"}.get(token.kind, token.kind)
        found.append((token.begin, token.end, sort, int(marks)))
    data, line, column = [], 0, 0
    for begin, end, sort, marks in sorted(found):
        start, stop = document.position(begin), document.position(end)
        if start["line"] != stop["line"]:  # a string or a remark with a carriage return in it
            continue
        ahead = start["line"] - line
        data += [ahead, start["character"] - (0 if ahead else column), stop["character"] - start["character"], TYPES.index(sort), marks]
        line, column = start["line"], start["character"]
    return data

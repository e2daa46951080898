"""What is shown besides a ruleset's text: units of names, what a rule costs, and what a call takes."""

import re

from basin_rules import trees
from basin_rules.grammar import CONVERSIONS, OF_ONE, OF_TWO
from basin_rules.measures import unit_words

from . import checking, telling
from .reading import lexed

TYPE = 1  # of a hint, by the protocol
WORDS = (*OF_ONE, *OF_TWO, *CONVERSIONS)


def shown(given):
    """A type in few words: its unit, where it has one."""
    if given.sort != "number":
        return given.words()
    return unit_words(given.measure) or "plain number"


def names_made(node):
    """The names that a form makes, in the order of the text, each with its type."""
    kinds = [part.type for part in node.parts]
    if isinstance(node, (trees.Let, trees.With)):
        return [(node.name, kinds[0])]
    if isinstance(node, (trees.For, trees.Map)):
        item = kinds[0].item if kinds[0] and kinds[0].is_list else None
        return [(node.item, item)] + ([(node.total, kinds[1])] if isinstance(node, trees.For) else [])
    return []


def hints_of(document, model, begin, end):
    """The units of names that forms make, and of slots that are set, within a stretch."""
    reading = checking.reading_of(document, model)
    makes = [use for use in telling.uses(document, reading) if use.makes and use.sort == "local"]
    found = []
    for declaration in reading.ruleset.declarations:
        if declaration.end < begin or declaration.head.begin > end:
            continue
        mine = [use for use in makes if declaration.head.begin <= use.begin <= declaration.end]
        for node in declaration.nodes():
            if isinstance(node, trees.Assign) and model and node.full_name in model.slots:
                unit = model.slots[node.full_name].unit
                found.append((node.target.end, f" {unit}" if unit else " plain number"))
            for name, given in names_made(node):
                use = next((one for one in mine if one.text == name and one.begin >= node.span.begin), None)
                if use and given:
                    mine.remove(use)
                    found.append((use.end, f": {shown(given)}"))
    return [
        {"position": document.position(place), "label": label, "kind": TYPE, "paddingLeft": False}
        for place, label in sorted(found)
        if begin <= place <= end
    ]


def lenses_of(document, model):
    """What each rule and each function costs at most, above it."""
    found = []
    for one in checking.reading_of(document, model).ruleset.declarations:
        if one.budget:
            cost = f"at most {one.budget.instructions:,} instructions, {one.budget.reads:,} reads, {one.budget.puts:,} puts"
            title = f"rule {one.rule}: {cost}" if one.is_rule else cost
            found.append({"range": document.range(one.head.begin, one.head.end), "command": {"title": title, "command": ""}})
    return found


def call_at(tokens):
    """The name of the call whose brackets are open at the end of tokens, and how many commas stand in them."""
    depth = commas = 0
    for at in range(len(tokens) - 1, 0, -1):
        token = tokens[at]
        if token.is_mark(")", "]", "}"):
            depth += 1
        elif depth and token.is_mark("(", "[", "{"):
            depth -= 1
        elif token.is_mark(";", ":="):
            return None, 0
        elif token.is_mark("[", "{"):
            commas = 0
        elif token.is_mark("("):
            before = tokens[at - 1]
            is_head = at > 1 and tokens[at - 2].is_mark("FUNCTION")
            if not is_head and (before.kind == "name" or before.is_mark(*WORDS)):
                return before.text, commas
            commas = 0
        elif token.is_mark(",") and not depth:
            commas += 1
    return None, 0


def signature_at(document, model, byte):
    """What the call takes in which a byte stands, or `None`."""
    name, commas = call_at(lexed(document.source.text, 0, byte)[0])
    if not name:
        return None
    function = checking.reading_of(document, model).ruleset.functions.get(name)
    if function:
        label = document.source.words(function.head, 400).removeprefix("FUNCTION ")
        parts = [document.source.words(one.type.span, 80) + f" {one.name}" for one in function.parameters]
        says = ""
    else:
        text = telling.FUNCTIONS.get(name) or telling.FORMS.get(name)
        if not text:
            return None
        label, says = text.split("`")[1], text.partition("`: ")[2]
        inner = re.fullmatch(r"\w+\((.*)\)", label)
        parts = inner[1].split(", ") if inner else []
    told = {"label": label, "parameters": [{"label": one} for one in parts]}
    signature = {**told, "documentation": says} if says else told
    return {"signatures": [signature], "activeSignature": 0, "activeParameter": min(commas, max(len(parts) - 1, 0))}

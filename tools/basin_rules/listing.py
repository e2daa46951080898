"""The code of a ruleset, block by block and place by place, with the line of the ruleset of each instruction."""

from collections.abc import Callable
from typing import Any

from . import trees
from .measures import DATE, Type
from .rulesets import Ruleset

TESTS = {"=": "eq", "<>": "eq not", "<": "lt", ">=": "lt not", "<=": "le", ">": "le not"}
OPERATORS = {"*": "mul", "/": "div", "ITEM": "item", "APPEND": "append"}
WORDS = {"-": "neg", "NOT": "not", "KNOWN": "known", "LENGTH": "length", "MONTH": "month", "DAY": "day"}
WORDS |= {"YEAR": "year"}
LOOKUPS = {"StorageToElevation": "toelevation", "ElevationToStorage": "tostorage"}


def instructions_of(ruleset: Ruleset) -> list[list[tuple[str, trees.Node]]]:
    """Of each declaration the words of its instructions, each with the node that it comes from."""
    return [Writing(ruleset, declaration).written for declaration in ruleset.declarations]


def lines_of(ruleset: Ruleset, code: str) -> list[list[int]] | None:
    """Of each block of code the lines of the ruleset of its instructions, or `None` where it has other ones."""
    blocks = [block.split("\n")[2:] for block in code.removeprefix("CODE 1\n").split("END\n")[:-1]]
    found = instructions_of(ruleset)
    lines = []
    for texts, written in zip(blocks, found):
        if [text.split(" ")[0] for text in texts if text] != [word for word, _ in written]:
            return None
        lines.append([ruleset.source.line(node.span.begin) for _, node in written])
    return lines if len(blocks) == len(found) else None


class Writing:
    """Goes through a declaration in the order of its code."""

    def __init__(self, ruleset: Ruleset, declaration: trees.Declaration) -> None:
        self.functions = ruleset.functions
        self.written: list[tuple[str, trees.Node]] = []
        if declaration.is_rule:
            self.statements(declaration.body)
        else:
            body = declaration.body[0]
            self.value(body)
            self.widen(body, body, declaration.gives.most)

    def write(self, node: trees.Node, *words: str) -> None:
        """Instructions that come from a node."""
        self.written += [(word, node) for text in words for word in text.split()]

    def widen(self, at: trees.Node, node: trees.Node, room: int) -> None:
        """What gives a list the room of its place."""
        if node.judged.is_list and node.judged.most < room:
            self.write(at, "widen")

    def statements(self, statements: list[trees.Node]) -> None:
        """Statements in a row."""
        for statement in statements:
            self.value(statement.parts[0])
            if isinstance(statement, trees.Assign):
                self.write(statement, "put")
            elif isinstance(statement, trees.With):
                self.write(statement, "store")
                self.statements(statement.parts[1:])
            elif isinstance(statement, trees.Branch):
                self.write(statement, "branch")
                self.statements(statement.yes)
                self.write(statement, "jump target")
                self.statements(statement.no)
                self.write(statement, "target")

    def value(self, node: trees.Node) -> None:
        """An expression."""
        VALUES[type(node)](self, node)

    def parts(self, node: trees.Node, *words: str) -> None:
        """The parts of a form, and then its instructions."""
        for part in node.parts:
            self.value(part)
        self.write(node, *words)

    def call(self, node: trees.Call) -> None:
        """A call."""
        function = self.functions.get(node.name)
        for place, part in enumerate(node.parts):
            self.value(part)
            if function:
                self.widen(node, part, function.parameters[place].type.most)
        self.write(node, "invoke" if function else "call")

    def choice(self, node: trees.Choice) -> None:
        """An IF."""
        condition, yes, no = node.parts
        self.value(condition)
        self.write(node, "branch")
        self.value(yes)
        self.widen(node, yes, node.judged.most)
        self.write(node, "jump target")
        self.value(no)
        self.widen(node, no, node.judged.most)
        self.write(node, "target")

    def let(self, node: trees.Let) -> None:
        """A LET."""
        self.value(node.parts[0])
        self.write(node, "store")
        self.value(node.parts[1])

    def each(self, node: trees.For) -> None:
        """A FOR."""
        items, start, body = node.parts
        self.value(items)
        self.value(start)
        self.write(node, "store foreach")
        self.value(body)
        self.widen(node, body, start.judged.most)
        self.write(node, "store next load")

    def map(self, node: trees.Map) -> None:
        """A MAP."""
        self.value(node.parts[0])
        self.write(node, "map")
        self.value(node.parts[1])
        self.write(node, "yield")

    def one(self, node: trees.One) -> None:
        """A word of one expression; KNOWN asks where others read."""
        self.value(node.parts[0])
        if node.word == "KNOWN":
            self.written.pop()
        self.write(node, WORDS[node.word])

    def two(self, node: trees.Two) -> None:
        """A word or an operator of two expressions."""
        left, right = node.parts
        self.value(left)
        if node.word == "OR":
            self.write(node, "branch bool jump target")
            self.value(right)
            self.write(node, "target")
        elif node.word == "AND":
            self.write(node, "branch")
            self.value(right)
            self.write(node, "jump target bool target")
        else:
            self.value(right)
            self.write(node, operation(node.word, left.judged, right.judged))


def operation(word: str, left: Type, right: Type) -> str:
    """The instructions of an operator on operands of these types."""
    if word in TESTS:
        return f"d{TESTS[word]}" if left == DATE else TESTS[word]
    if word == "+":
        return "shift" if left == DATE else "add"
    if word == "-":
        return "sub" if left != DATE else "between" if right == DATE else "back"
    return OPERATORS[word]


# Each takes the nodes of its own form.
VALUES: dict[type[trees.Node], Callable[[Writing, Any], None]] = {
    trees.Literal: lambda writing, node: writing.write(node, "num"),
    trees.Truth: lambda writing, node: writing.write(node, "bool"),
    trees.Now: lambda writing, node: writing.write(node, "now"),
    trees.SlotName: lambda writing, node: writing.write(node, "slot"),
    trees.Name: lambda writing, node: writing.write(node, "load"),
    trees.Call: Writing.call,
    trees.Brackets: lambda writing, node: writing.value(node.parts[0]),
    trees.ListOf: lambda writing, node: writing.parts(node, "list"),
    trees.Choice: Writing.choice,
    trees.Let: Writing.let,
    trees.For: Writing.each,
    trees.Map: Writing.map,
    trees.One: Writing.one,
    trees.Two: Writing.two,
    trees.Convert: lambda writing, node: writing.parts(node, LOOKUPS[node.word]),
    trees.At: lambda writing, node: writing.parts(node, "read"),
}

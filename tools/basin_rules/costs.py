"""What a firing costs at most, as docs/LANGUAGE.md tells it under "Limits, costs and budgets"."""

from __future__ import annotations

from collections.abc import Callable, Sequence
from dataclasses import astuple, dataclass
from typing import Any

from . import trees, verifier
from .judging import Signature
from .measures import Type
from .places import Source

NAMES = ("instructions", "reads", "puts", "words")
LIMITS = tuple(limit for limit, _ in verifier.LIMITS)


@dataclass(frozen=True)
class Cost:
    """What a node comes to each time: instructions, reads and puts. Costs are added up, and repeated by a loop."""

    instructions: int = 0
    reads: int = 0
    puts: int = 0

    def parts(self) -> tuple[int, int, int]:
        """Its parts, in the order of a budget."""
        return self.instructions, self.reads, self.puts

    def __add__(self, other: Cost) -> Cost:
        return Cost(*(one + more for one, more in zip(self.parts(), other.parts())))

    def times(self, turns: int) -> Cost:
        """The cost of so many turns."""
        return Cost(*(turns * one for one in self.parts()))

    def or_else(self, other: Cost) -> Cost:
        """Of two ways the dearer, in each part by itself."""
        return Cost(*(max(one, than) for one, than in zip(self.parts(), other.parts())))


@dataclass(frozen=True)
class Budget:
    """The most that a firing of a declaration comes to."""

    instructions: int
    reads: int
    puts: int
    words: int

    def above(self) -> list[tuple[str, int, int]]:
        """The parts that are above their limits: name, amount and limit of each."""
        parts = zip(NAMES, astuple(self), LIMITS)
        return [(name, amount, limit) for name, amount, limit in parts if amount > limit]


def words_above(budget: Budget) -> str:
    """What is told of a budget that is above a limit."""
    amounts = [f"{amount:,} {name}, but at most {limit:,} are allowed" for name, amount, limit in budget.above()]
    return f"a firing may need {'; '.join(amounts)}"


NOTHING = Cost()
LOOK, PUT = Cost(1, 1, 0), Cost(1, 0, 1)


def steps(count: int) -> Cost:
    """A cost of instructions alone."""
    return Cost(count)


class Costing:
    """Reckons declarations in their order, each of which is typed. `functions` are the budgets by name."""

    def __init__(self) -> None:
        self.functions: dict[str, tuple[Signature, Cost, int]] = {}  # by name: signature, cost and words

    def budget(self, declaration: trees.Declaration, signature: Signature | None) -> Budget:
        """The budget of a declaration, which its nodes' costs come to."""
        if declaration.is_rule:
            cost = self.all(declaration.body)
            words = sum(map(locals_of, declaration.body)) + self.height_of(declaration.body)
            return Budget(*cost.parts(), words)
        assert signature  # a function has one
        body = declaration.body[0]
        cost = self.cost(body) + self.widened(body, signature.result)
        taken = sum(one.size for one in signature.takes)
        words = taken + locals_of(body) + max(self.height(body), signature.result.size)
        self.functions[declaration.name] = (signature, cost, words)
        return Budget(*cost.parts(), words)

    # ---- instructions, reads and puts

    def cost(self, node: trees.Node) -> Cost:
        """What a node comes to, with all below it; it is kept at the node."""
        cost = node.cost = COSTS[type(node)](self, node)
        return cost

    def all(self, nodes: list[trees.Node]) -> Cost:
        """What nodes come to together."""
        total = NOTHING
        for node in nodes:
            total += self.cost(node)
        return total

    def widened(self, node: trees.Node, place: Type) -> Cost:
        """What it costs to give a list the room of its place."""
        return steps(place.size) if place.is_list and node.judged.most < place.most else NOTHING

    def leaf(self, node: trees.Node) -> Cost:
        """A form without parts."""
        return steps(1)

    def name(self, node: trees.Name) -> Cost:
        """A variable."""
        return steps(node.judged.size)

    def call(self, node: trees.Call) -> Cost:
        """A call, with its arguments."""
        cost = self.all(node.parts)
        if node.name not in self.functions:
            return cost + steps(1)
        signature, inside, _ = self.functions[node.name]
        for part, place in zip(node.parts, signature.takes):
            cost += self.widened(part, place)
        return cost + steps(sum(one.size for one in signature.takes) + 1) + inside

    def brackets(self, node: trees.Brackets) -> Cost:
        """What stands in brackets."""
        return self.cost(node.parts[0])

    def list(self, node: trees.ListOf) -> Cost:
        """A list."""
        return self.all(node.parts) + steps(node.judged.size)

    def choice(self, node: trees.Choice) -> Cost:
        """An IF: its condition, and the dearer branch."""
        condition, yes, no = (self.cost(part) for part in node.parts)
        yes += self.widened(node.parts[1], node.judged)
        no += self.widened(node.parts[2], node.judged)
        return condition + yes.or_else(no) + steps(3)

    def let(self, node: trees.Let) -> Cost:
        """A LET."""
        return self.all(node.parts) + steps(node.parts[0].judged.size)

    def each(self, node: trees.For) -> Cost:
        """A FOR."""
        items, start, body = node.parts
        total = start.judged
        turn = self.cost(body) + self.widened(body, total) + steps(total.size + 1)
        return self.cost(items) + self.cost(start) + steps(2 * total.size + 1) + turn.times(items.judged.most)

    def map(self, node: trees.Map) -> Cost:
        """A MAP."""
        items, body = node.parts
        return self.cost(items) + steps(1) + (self.cost(body) + steps(1)).times(items.judged.most)

    def one(self, node: trees.One) -> Cost:
        """A word of one expression. KNOWN costs what its look does."""
        return self.cost(node.parts[0]) + (NOTHING if node.word == "KNOWN" else steps(1))

    def two(self, node: trees.Two) -> Cost:
        """A word or an operator of two expressions."""
        left, right = (self.cost(part) for part in node.parts)
        if node.word in ("OR", "AND"):
            return left + right.or_else(steps(1)) + steps(3)
        if node.word == "APPEND":
            return left + right + steps(node.parts[0].judged.most + 2)
        return left + right + steps(2 if node.word in ("<>", ">", ">=") else 1)

    def look(self, node: trees.At) -> Cost:
        """The value of a slot at a date."""
        return self.all(node.parts) + LOOK

    def assign(self, node: trees.Assign) -> Cost:
        """A slot is set."""
        return self.cost(node.parts[0]) + PUT

    def branch(self, node: trees.Branch) -> Cost:
        """An IF of statements."""
        return self.cost(node.parts[0]) + self.all(node.yes).or_else(self.all(node.no)) + steps(3)

    def naming(self, node: trees.With) -> Cost:
        """A WITH of statements."""
        return self.all(node.parts) + steps(node.parts[0].judged.size)

    # ---- words: how high operands and loops come to stand

    def height(self, node: trees.Node) -> int:
        """How high the operands and loops of an expression stand, above those that wait before it."""
        parts = [self.height(part) for part in node.parts]
        if isinstance(node, trees.Name):
            return node.judged.size
        if isinstance(node, trees.Call):
            return max(self.height_of_arguments(node, parts), node.judged.size)
        if isinstance(node, trees.ListOf):
            return max(max(place + height for place, height in enumerate(parts)), len(parts) + 1)
        if isinstance(node, trees.Choice):
            return max(*parts, node.judged.size)
        if isinstance(node, (trees.For, trees.Map)):
            return self.height_of_loop(node, parts)
        if isinstance(node, trees.Two):
            waits = 0 if node.word in ("AND", "OR") else node.parts[0].judged.size
            return max(parts[0], waits + parts[1])
        if isinstance(node, trees.At):
            return max(parts[0], 1 + parts[1])
        return max(parts, default=1)

    def height_of_arguments(self, node: trees.Call, heights: Sequence[int]) -> int:
        """The same of a call."""
        if node.name not in self.functions:
            return max((place + max(height, 1) for place, height in enumerate(heights)), default=0)
        signature, _, words = self.functions[node.name]
        highest = waits = 0
        for height, place in zip(heights, signature.takes):
            highest = max(highest, waits + max(height, place.size))
            waits += place.size
        return max(highest, waits + words)

    def height_of_loop(self, node: trees.For | trees.Map, heights: Sequence[int]) -> int:
        """The same of a FOR or a MAP."""
        room = node.parts[0].judged.most
        if isinstance(node, trees.Map):
            return max(heights[0], 2 * room + 4 + heights[1])
        size = node.parts[1].judged.size
        items, start, body = heights
        return max(items, node.parts[0].judged.size + start, room + 3 + max(body, size))

    def height_of(self, statements: Sequence[trees.Node]) -> int:
        """The same of statements."""
        highest = 0
        for statement in statements:
            highest = max(highest, self.height(statement.parts[0]), self.height_of(statement.parts[1:]))
        return highest


def locals_of(node: trees.Node) -> int:
    """How many words the names take that a node makes, with those of the nodes below it."""
    return sum(names_of(one) for one in node.nodes())


def names_of(node: trees.Node) -> int:
    """How many words the names take that a node itself makes."""
    if isinstance(node, (trees.Let, trees.With)):
        return node.parts[0].judged.size
    if isinstance(node, trees.For):
        return 1 + node.parts[1].judged.size
    return 1 if isinstance(node, trees.Map) else 0


# Each takes the nodes of its own form.
COSTS: dict[type[trees.Node], Callable[[Costing, Any], Cost]] = {
    trees.Literal: Costing.leaf,
    trees.Truth: Costing.leaf,
    trees.Now: Costing.leaf,
    trees.SlotName: Costing.leaf,
    trees.Name: Costing.name,
    trees.Call: Costing.call,
    trees.Brackets: Costing.brackets,
    trees.ListOf: Costing.list,
    trees.Choice: Costing.choice,
    trees.Let: Costing.let,
    trees.For: Costing.each,
    trees.Map: Costing.map,
    trees.One: Costing.one,
    trees.Two: Costing.two,
    trees.Convert: lambda costing, node: costing.cost(node.parts[0]) + steps(1),
    trees.At: Costing.look,
    trees.Assign: Costing.assign,
    trees.Branch: Costing.branch,
    trees.With: Costing.naming,
}


# ---- which part costs how much


def dearest(declaration: trees.Declaration, name: str, source: Source) -> list[str]:
    """Lines that tell which parts of a declaration come to most of one part of its budget, the outer ones first."""
    if name == "words":
        return roomiest(declaration, source)
    part = NAMES.index(name)
    nodes, turns = declaration.body, 1
    lines: list[str] = []
    while nodes:
        node = max(nodes, key=lambda one: one.reckoned.parts()[part])
        amount = turns * node.reckoned.parts()[part]
        if isinstance(node, (trees.For, trees.Map)):
            lines.append(f"{source.place(node.span.begin)}: `{source.words(node.span)}` comes to {amount:,}")
            lines.append(f"    of up to {node.parts[0].judged.most:,} turns")
            turns *= node.parts[0].judged.most
        elif isinstance(node, trees.Call) and node.parts:
            lines.append(f"{source.place(node.span.begin)}: `{source.words(node.span)}` comes to {amount:,}")
        nodes = node.parts if node.reckoned.parts()[part] else []
    return lines[:10]


def roomiest(declaration: trees.Declaration, source: Source) -> list[str]:
    """Lines that tell which lists of a declaration take most words."""
    lists = [node for node in declaration.nodes() if node.type and node.type.is_list]
    lists.sort(key=lambda node: -node.judged.size)
    return [
        f"{source.place(node.span.begin)}: `{source.words(node.span)}` takes {node.judged.size:,} words"
        for node in lists[:5]
    ]

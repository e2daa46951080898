"""The tree of a ruleset: declarations, statements and expressions, each with its place in the text.

A node's `parts` are the nodes below it, in the order of the text, in which `basin` counts them.
"""

from __future__ import annotations

from collections.abc import Iterator
from dataclasses import dataclass, field
from typing import TYPE_CHECKING

from basin_files.reasons import LONG, plain

from .places import Span

if TYPE_CHECKING:
    from .costs import Budget, Cost
    from .measures import Type
    from .tokens import Token


@dataclass(eq=False)
class Node:
    """A statement or an expression: where it stands, how deep it is, and its number in its declaration.

    `type` is that of an expression once it is judged, and `cost` what it comes to once it is reckoned.
    """

    span: Span
    parts: list[Node] = field(default_factory=list)
    depth: int = 1
    number: int = 0
    type: Type | None = None
    cost: Cost | None = None

    @property
    def judged(self) -> Type:
        """The type of an expression that is judged."""
        assert self.type
        return self.type

    @property
    def reckoned(self) -> Cost:
        """What a node comes to that is reckoned."""
        assert self.cost
        return self.cost

    def nodes(self) -> Iterator[Node]:
        """The node itself and all below it, in the order of their numbers."""
        waiting = [self]
        while waiting:
            node = waiting.pop()
            yield node
            waiting.extend(reversed(node.parts))


@dataclass(eq=False)
class Literal(Node):
    """A number, with its unit where it has one."""

    value: int = 0
    unit: Token | None = None


@dataclass(eq=False)
class Truth(Node):
    """`TRUE` or `FALSE`."""

    value: bool = False


@dataclass(eq=False)
class Now(Node):
    """`t`."""


@dataclass(eq=False)
class SlotName(Node):
    """`Object.Slot`."""

    full_name: str = ""


@dataclass(eq=False)
class Name(Node):
    """A variable."""

    name: str = ""


@dataclass(eq=False)
class Call(Node):
    """A function with its arguments."""

    name: str = ""


@dataclass(eq=False)
class Brackets(Node):
    """`( .. )`."""


@dataclass(eq=False)
class ListOf(Node):
    """`{ .. }`."""


@dataclass(eq=False)
class Choice(Node):
    """`IF c THEN x ELSE y ENDIF`."""


@dataclass(eq=False)
class Let(Node):
    """`LET name := e IN x ENDLET`."""

    name: str = ""


@dataclass(eq=False)
class For(Node):
    """`FOR item IN l WITH total := e DO b ENDFOR`."""

    item: str = ""
    total: str = ""


@dataclass(eq=False)
class Map(Node):
    """`MAP item IN l DO b ENDMAP`."""

    item: str = ""


@dataclass(eq=False)
class One(Node):
    """`-`, `NOT`, `KNOWN`, `LENGTH`, `MONTH`, `DAY` or `YEAR` of an expression."""

    word: str = ""


@dataclass(eq=False)
class Two(Node):
    """An operator, `APPEND` or `ITEM` of two expressions."""

    word: str = ""


@dataclass(eq=False)
class Convert(Node):
    """`StorageToElevation` or `ElevationToStorage`."""

    word: str = ""
    owner: str = ""


@dataclass(eq=False)
class At(Node):
    """`s[d]`: the value of a slot at a date."""


# ---- statements


@dataclass(eq=False)
class Assign(Node):
    """`Object.Slot[t] := e;`. `target` is where the slot stands, `ahead` the number behind `t +`."""

    full_name: str = ""
    ahead: int = 0
    target: Span = Span(0, 0)


@dataclass(eq=False)
class Branch(Node):
    """`IF c THEN .. ELSE .. ENDIF`: the condition is its first part, then stand `yes` and `no`."""

    yes: list[Node] = field(default_factory=list)
    no: list[Node] = field(default_factory=list)


@dataclass(eq=False)
class With(Node):
    """`WITH name := e DO .. ENDWITH`: the value is its first part, then stands its body."""

    name: str = ""


STATEMENTS = (Assign, Branch, With)

# ---- declarations


@dataclass(frozen=True)
class TypeName:
    """A type as it is written: its word, the word behind OF, its unit (a token), and how many."""

    word: str
    span: Span
    element: str = ""
    unit: Token | None = None
    most: int = 0


@dataclass(frozen=True)
class Parameter:
    """A parameter of a function: its name, where that stands, and its type."""

    name: str
    span: Span
    type: TypeName


@dataclass
class Declaration:
    """A rule (`result` is `None`) or a function: its name, where it begins, its head, and its body."""

    name: str
    head: Span
    name_span: Span
    body: list[Node]  # the statements of a rule, or the expression of a function
    parameters: list[Parameter] = field(default_factory=list)
    result: TypeName | None = None
    number: int = 0  # among all declarations
    rule: int = 0  # among the rules
    budget: Budget | None = None

    @property
    def comes_to(self) -> Budget:
        """The budget of a declaration with which nothing is wrong."""
        assert self.budget
        return self.budget

    @property
    def gives(self) -> TypeName:
        """The type of a function's result."""
        assert self.result
        return self.result

    @property
    def is_rule(self) -> bool:
        """Whether it is a rule."""
        return self.result is None

    @property
    def called(self) -> str:
        """The declaration for people to read."""
        return f'rule {self.rule} "{self.shown_name}"' if self.is_rule else f"function {self.name}"

    @property
    def shown_name(self) -> str:
        """The name for people to read: its bytes as letters."""
        return plain(self.name.encode("latin-1").decode("utf-8", "backslashreplace"), LONG)

    def nodes(self) -> Iterator[Node]:
        """All its nodes, in the order of their numbers."""
        for node in self.body:
            yield from node.nodes()

"""The grammar of a ruleset: declarations of tokens, or the first place where no reading goes on."""

from __future__ import annotations

import sys
from collections.abc import Callable, Iterator, Sequence
from dataclasses import dataclass
from typing import NoReturn, ParamSpec, TypeVar

from . import trees
from .places import Span
from .tokens import Token

DEEPEST = 100  # forms within forms
OR, AND, NOT, COMPARISON, SUM, PRODUCT, MINUS, POSTFIX = range(7, -1, -1)
OPERATORS = {
    OR: ("OR",),
    AND: ("AND",),
    COMPARISON: ("=", "<>", "<", "<=", ">", ">="),
    SUM: ("+", "-"),
    PRODUCT: ("*", "/"),
}
PREFIXES = {NOT: "NOT", MINUS: "-"}
OF_ONE = ("KNOWN", "LENGTH", "MONTH", "DAY", "YEAR")
OF_TWO = ("APPEND", "ITEM")
CONVERSIONS = ("StorageToElevation", "ElevationToStorage")
Form = TypeVar("Form", bound=trees.Node)
Read = TypeVar("Read")
Words = ParamSpec("Words")
EXPRESSION, STATEMENT = "an expression", "a statement"
sys.setrecursionlimit(5_000)  # the deepest text that is read wants some 1,300


@dataclass(frozen=True)
class Opened:
    """A form that is begun and not yet ended: its word, and where that stands."""

    word: str
    span: Span


class NoReading(Exception):
    """No reading goes on at a token: what may stand there, what would go on with the form, and what is open."""

    def __init__(self, at: int, wanted: list[str], going: list[str], opened: list[Opened]) -> None:
        super().__init__("bad declaration")
        self.at, self.wanted, self.going, self.opened = at, wanted, going, opened


class TooDeep(Exception):
    """Forms within forms are too many, at the last of them; `chain` is how many operators stand there in a row."""

    def __init__(self, span: Span, chain: int = 0) -> None:
        super().__init__("bad declaration")
        self.span, self.chain = span, chain


def pieces_of(tokens: list[Token]) -> Iterator[list[Token]]:
    """The tokens of each declaration: they end with the first ENDRULE or ENDFUNCTION."""
    piece = []
    for token in tokens:
        piece.append(token)
        if token.is_mark("ENDRULE", "ENDFUNCTION"):
            yield piece
            piece = []
    if piece:
        yield piece


def read_declaration(piece: list[Token]) -> trees.Declaration:
    """The declaration that tokens spell. `NoReading` or `TooDeep` where they spell none."""
    return Reader(piece).declaration()


class Reader:
    """Reads the tokens of a declaration from the front, with one token of look-ahead."""

    def __init__(self, piece: list[Token]) -> None:
        self.piece, self.at = piece, 0
        last = piece[-1].end
        self.end = Token("end", "", last, last)
        self.wanted: list[str] = []  # what may stand here
        self.going: list[str] = []  # what would go on with a form
        self.opened: list[Opened] = []
        self.level = 0  # in how many forms it is

    # ---- tokens

    @property
    def token(self) -> Token:
        """The token that is next."""
        return self.piece[self.at] if self.at < len(self.piece) else self.end

    def take(self) -> Token:
        """Takes the next token."""
        token = self.token
        self.at += 1
        self.wanted, self.going = [], []
        return token

    def sees(self, *marks: str, going: bool = False) -> bool:
        """Whether one of these marks is next."""
        (self.going if going else self.wanted).extend(marks)
        return self.token.is_mark(*marks)

    def skips(self, *marks: str, going: bool = False) -> Token | None:
        """Takes one of these marks, if it is next."""
        return self.take() if self.sees(*marks, going=going) else None

    def refuse(self) -> NoReturn:
        """No reading goes on here."""
        wanted = list(dict.fromkeys(self.wanted))
        going = [mark for mark in dict.fromkeys(self.going) if mark not in wanted]
        raise NoReading(self.at, wanted, going, list(self.opened))

    def mark(self, *marks: str) -> Token:
        """Takes one of these marks, which has to be next."""
        return self.skips(*marks) or self.refuse()

    def of_kind(self, kind: str, called: str) -> Token:
        """Takes a token of a kind, which has to be next."""
        self.wanted.append(called)
        return self.take() if self.token.kind == kind else self.refuse()

    def name(self) -> Token:
        """Takes a name."""
        return self.of_kind("name", "a name")

    def string(self, called: str = "a unit in quotes") -> Token:
        """Takes a string."""
        return self.of_kind("string", called)

    # ---- nodes

    def made(self, form: Callable[..., Form], begin: int, parts: Sequence[trees.Node] = (), **more: object) -> Form:
        """A node that ends with the token that was taken last."""
        span = Span(begin, self.piece[self.at - 1].end)
        depth = max((part.depth for part in parts), default=0) + 1
        node = form(span, [*parts], depth, **more)
        if self.level + depth > DEEPEST:
            raise TooDeep(span, chained(node))
        return node

    def within(self, read: Callable[Words, Read], *words: Words.args, **named: Words.kwargs) -> Read:
        """What is read within a form more."""
        if self.level >= DEEPEST:
            raise TooDeep(self.token.span)
        self.level += 1
        found = read(*words, **named)
        self.level -= 1
        return found

    def open(self, token: Token) -> Token:
        """A form is begun."""
        self.opened.append(Opened(token.text, token.span))
        return token

    def close(self, *marks: str) -> Token:
        """The form that was begun last is ended."""
        token = self.mark(*marks)
        self.opened.pop()
        return token

    # ---- declarations

    def declaration(self) -> trees.Declaration:
        """A whole declaration."""
        first = self.open(self.mark("RULE", "FUNCTION"))
        found = self.rule(first) if first.text == "RULE" else self.function(first)
        self.wanted.append("the end of the text")
        return found if self.token.kind == "end" else self.refuse()

    def rule(self, first: Token) -> trees.Declaration:
        """A rule, behind its first word."""
        name = self.string("its name in quotes")
        self.mark(":")
        body = self.statements("ENDRULE")
        self.close("ENDRULE")
        return trees.Declaration(name.text, Span(first.begin, name.end), name.span, body)

    def function(self, first: Token) -> trees.Declaration:
        """A function, behind its first word."""
        name = self.name()
        self.mark("(")
        parameters = []
        if not self.sees(")"):
            parameters = [self.parameter()]
            while self.skips(","):
                parameters.append(self.parameter())
        self.mark(")")
        self.mark(":")
        result = self.type()
        self.mark("IS")
        body = self.expression()
        self.close("ENDFUNCTION")
        head = Span(first.begin, result.span.end)
        return trees.Declaration(name.text, head, name.span, [body], parameters, result)

    def parameter(self) -> trees.Parameter:
        """A parameter of a function."""
        written = self.type()
        name = self.name()
        return trees.Parameter(name.text, name.span, written)

    def type(self) -> trees.TypeName:
        """A type as it is written."""
        first = self.mark("NUMERIC", "BOOLEAN", "DATETIME", "SLOT", "LIST")
        most, element = 0, ""
        if first.text == "LIST":
            most = int(self.of_kind("number", "a number").text)
            self.mark("OF")
            element = self.mark("NUMERIC", "SLOT").text
        unit = self.string() if first.text not in ("BOOLEAN", "DATETIME") else None
        return trees.TypeName(first.text, Span(first.begin, (unit or first).end), element, unit, most)

    # ---- statements

    def statements(self, *ends: str) -> list[trees.Node]:
        """Statements up to a word that ends them."""
        found: list[trees.Node] = []
        while True:
            self.wanted.append(STATEMENT)
            if self.token.is_mark("IF"):
                found.append(self.branch())
            elif self.token.is_mark("WITH"):
                found.append(self.naming())
            elif self.token.kind == "name":
                found.append(self.assignment())
            else:
                self.sees(*ends)
                return found

    def assignment(self) -> trees.Assign:
        """A slot is set."""
        owner = self.take()
        self.mark(".")
        slot = self.name()
        self.mark("[")
        self.mark("t")
        ahead = int(self.of_kind("number", "a number").text) if self.skips("+") else 0
        target = Span(owner.begin, self.mark("]").end)
        self.mark(":=")
        value = self.within(self.expression)
        self.mark(";")
        full_name = f"{owner.text}.{slot.text}"
        return self.made(
            trees.Assign, owner.begin, [value], full_name=full_name, ahead=ahead, target=target
        )

    def branch(self) -> trees.Branch:
        """An IF of statements."""
        first = self.open(self.take())
        condition = self.within(self.expression)
        self.mark("THEN")
        yes = self.within(self.statements, "ELSE", "ENDIF")
        no: list[trees.Node] = self.within(self.statements, "ENDIF") if self.skips("ELSE") else []
        self.close("ENDIF")
        return self.made(trees.Branch, first.begin, [condition, *yes, *no], yes=yes, no=no)

    def naming(self) -> trees.With:
        """A WITH of statements."""
        first = self.open(self.take())
        name = self.name()
        self.mark(":=")
        value = self.within(self.expression)
        self.mark("DO")
        body = self.within(self.statements, "ENDWITH")
        self.close("ENDWITH")
        return self.made(trees.With, first.begin, [value, *body], name=name.text)

    # ---- expressions

    def expression(self, looseness: int = OR) -> trees.Node:
        """An expression that holds together at least so tightly."""
        if looseness == POSTFIX:
            return self.postfix()
        if looseness in PREFIXES:
            if not self.token.is_mark(PREFIXES[looseness]):
                return self.expression(looseness - 1)
            word = self.take()
            part = self.within(self.expression, looseness)
            return self.made(trees.One, word.begin, [part], word=word.text)
        found = self.expression(looseness - 1)
        while operator := self.skips(*OPERATORS[looseness], going=True):
            behind = self.expression(looseness - 1)
            found = self.made(trees.Two, found.span.begin, [found, behind], word=operator.text)
            if looseness == COMPARISON:
                break
        return found

    def postfix(self) -> trees.Node:
        """A primary, and looks at dates behind it."""
        found = self.primary()
        while self.skips("[", going=True):
            date = self.within(self.expression)
            self.mark("]")
            found = self.made(trees.At, found.span.begin, [found, date])
        return found

    def primary(self) -> trees.Node:
        """An expression that begins with its own word."""
        self.wanted.append(EXPRESSION)
        token = self.token
        if token.kind == "number":
            return self.literal()
        if token.kind == "name":
            return self.named()
        forms: dict[str, Callable[[Token], trees.Node]] = {
            "(": self.brackets,
            "{": self.list,
            "IF": self.choice,
            "LET": self.let,
            "FOR": self.each,
            "MAP": self.map,
        }
        if token.is_mark("TRUE", "FALSE"):
            self.take()
            return self.made(trees.Truth, token.begin, value=token.text == "TRUE")
        if token.is_mark("t"):
            self.take()
            return self.made(trees.Now, token.begin)
        if token.is_mark(*forms):
            return forms[token.text](self.take())
        if token.is_mark(*OF_ONE, *OF_TWO, *CONVERSIONS):
            return self.word(self.take())
        return self.refuse()

    def literal(self) -> trees.Literal:
        """A number, with its unit where it has one."""
        number = self.take()
        self.going.append("a unit in quotes")
        unit = self.take() if self.token.kind == "string" else None
        return self.made(trees.Literal, number.begin, value=int(number.text), unit=unit)

    def named(self) -> trees.Node:
        """A slot, a call, or a variable."""
        name = self.take()
        if self.skips(".", going=True):
            slot = self.name()
            return self.made(trees.SlotName, name.begin, full_name=f"{name.text}.{slot.text}")
        if self.skips("(", going=True):
            parts: list[trees.Node] = [] if self.sees(")") else self.within(self.several)
            self.mark(")")
            return self.made(trees.Call, name.begin, parts, name=name.text)
        return self.made(trees.Name, name.begin, name=name.text)

    def several(self) -> list[trees.Node]:
        """Expressions with commas between them."""
        parts = [self.expression()]
        while self.skips(","):
            parts.append(self.expression())
        return parts

    def brackets(self, first: Token) -> trees.Brackets:
        """`( .. )`."""
        part = self.within(self.expression)
        self.mark(")")
        return self.made(trees.Brackets, first.begin, [part])

    def list(self, first: Token) -> trees.ListOf:
        """`{ .. }`."""
        parts = self.within(self.several)
        self.mark("}")
        return self.made(trees.ListOf, first.begin, parts)

    def choice(self, first: Token) -> trees.Choice:
        """An IF of expressions."""
        self.open(first)
        parts = [self.within(self.expression)]
        for word in ("THEN", "ELSE"):
            self.mark(word)
            parts.append(self.within(self.expression))
        self.close("ENDIF")
        return self.made(trees.Choice, first.begin, parts)

    def let(self, first: Token) -> trees.Let:
        """A LET."""
        self.open(first)
        name = self.name()
        self.mark(":=")
        value = self.within(self.expression)
        self.mark("IN")
        body = self.within(self.expression)
        self.close("ENDLET")
        return self.made(trees.Let, first.begin, [value, body], name=name.text)

    def each(self, first: Token) -> trees.For:
        """A FOR."""
        self.open(first)
        item = self.name()
        self.mark("IN")
        items = self.within(self.expression)
        self.mark("WITH")
        total = self.name()
        self.mark(":=")
        start = self.within(self.expression)
        self.mark("DO")
        body = self.within(self.expression)
        self.close("ENDFOR")
        parts = [items, start, body]
        return self.made(trees.For, first.begin, parts, item=item.text, total=total.text)

    def map(self, first: Token) -> trees.Map:
        """A MAP."""
        self.open(first)
        item = self.name()
        self.mark("IN")
        items = self.within(self.expression)
        self.mark("DO")
        body = self.within(self.expression)
        self.close("ENDMAP")
        return self.made(trees.Map, first.begin, [items, body], item=item.text)

    def word(self, word: Token) -> trees.Node:
        """A word that takes expressions in brackets."""
        self.mark("(")
        if word.text in CONVERSIONS:
            owner = self.name()
            self.mark(",")
            parts = [self.within(self.expression)]
            self.mark(")")
            return self.made(trees.Convert, word.begin, parts, word=word.text, owner=owner.text)
        parts = [self.within(self.expression)]
        if word.text in OF_TWO:
            self.mark(",")
            parts.append(self.within(self.expression))
        self.mark(")")
        form: type[trees.Node] = trees.One if len(parts) == 1 else trees.Two
        return self.made(form, word.begin, parts, word=word.text)


def chained(node: trees.Node) -> int:
    """How many operators stand in a row, from an expression's last one on to the left."""
    count = 0
    while isinstance(node, trees.Two) and node.word not in OF_TWO:
        node = node.parts[0]
        count += 1
    return count


def numbered(declaration: trees.Declaration) -> trees.Declaration:
    """The declaration, with its nodes counted from 1, each before its parts."""
    for number, node in enumerate(declaration.nodes(), 1):
        node.number = number
    return declaration

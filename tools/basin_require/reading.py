"""A file of requirements: its functions, requirements and measures, or the first place where no reading goes on.

    file    : (function | require | measure)*
    require : REQUIRE string (clause (, clause)*)? (WHEN expression)? : expression ;
    clause  : ALWAYS | HOLDS number % (OF period | OF TRACES)? | FAILS AT MOST number period? (IN A ROW | IN number period)?
    period  : TIMESTEPS | MONTHS | YEARS | WATER YEARS          (or TIMESTEP, MONTH, YEAR)
    measure : MEASURE string (SUM | MEAN | LEAST | GREATEST | LAST) (WHEN expression)? : expression ;

A function and an expression are those of a ruleset (docs/LANGUAGE.md); the program judges them.
"""

import re
from dataclasses import dataclass, field
from fractions import Fraction

from basin_rules.findings import Finding
from basin_rules.places import Source, Span
from basin_rules.tokens import TOKEN, behind_gap

PERIODS = ("timestep", "month", "year", "water year")
HOW = ("SUM", "MEAN", "LEAST", "GREATEST", "LAST")
EXTRA = re.compile("%")  # the only sign that the language of rules hasn't
LONGEST_NAME = 100


class Unreadable(Exception):
    """Why a file can't be read, with the place."""

    def __init__(self, span: Span, says: str, hint: str = ""):
        super().__init__(says)
        self.findings = [Finding("", span, says, hint)]


@dataclass(frozen=True)
class Word:
    """A token: its text and where it stands; `kind` is word, number, string, sign, or end."""

    kind: str
    text: str
    begin: int
    end: int

    @property
    def span(self) -> Span:
        """Where it stands."""
        return Span(self.begin, self.end)


@dataclass(frozen=True)
class Share:
    """Of the periods in which it is asked, at least so many percent have no failure."""

    percent: Fraction
    period: str = "timestep"

    def __str__(self) -> str:
        return f"holds {written(self.percent)} % of {self.period}s"


@dataclass(frozen=True)
class Most:
    """At most so many periods have a failure: in all, in a row, or in any so many that follow one another."""

    count: int
    period: str = "timestep"
    window: int = 0  # 0: in all
    in_a_row: bool = False

    def __str__(self) -> str:
        if not self.count:
            return "always"
        where = " in a row" if self.in_a_row else f" in {self.window}" if self.window else ""
        return f"fails at most {self.count} {self.period}{'s' * (self.count != 1)}{where}"


@dataclass
class Requirement:
    """A requirement, or a measure where it has a `how`: its name, its texts by their places, and its clauses."""

    name: str
    spelt: str  # the name in its quotes, with a letter for each byte
    head: Span
    expression: Span
    when: Span | None = None
    clauses: list[Share | Most] = field(default_factory=list)
    traces: Fraction = Fraction(100)  # of the traces, in how many percent it is to hold
    how: str = ""

    @property
    def wanted(self) -> str:
        """How often, for people to read."""
        if self.how:
            return self.how.lower()
        of_traces = [f"in {written(self.traces)} % of traces"] if self.traces < 100 else []
        return ", ".join([*map(str, self.clauses), *of_traces]) or "always"


@dataclass
class Requirements:
    """A file of requirements."""

    source: Source
    functions: list[Span] = field(default_factory=list)
    items: list[Requirement] = field(default_factory=list)

    @property
    def requirements(self) -> list[Requirement]:
        """What has to be kept."""
        return [one for one in self.items if not one.how]

    @property
    def measures(self) -> list[Requirement]:
        """What is reckoned besides."""
        return [one for one in self.items if one.how]


def written(number: Fraction) -> str:
    """A number with as many places as it has."""
    return f"{float(number):g}"


def read_requirements(source: Source) -> Requirements:
    """The requirements of a text. `Unreadable` tells the first place at which it can't be read."""
    return Reader(source).file()


def words_of(source: Source) -> list[Word]:
    """The tokens of a text, up to its end."""
    text, place, found = source.text, behind_gap(source.text, 0), []
    while place < len(text):
        match = TOKEN.match(text, place) or EXTRA.match(text, place)
        if not match:
            end = text.find("\n", place)
            is_open = text[place] == '"'
            says = "the text in quotes is not closed in its line" if is_open else "no word of the language begins so"
            raise Unreadable(Span(place, end if is_open and end >= 0 else place + 1), says)
        kind = match.lastgroup or "sign"
        found.append(Word(kind, match.group(), place, match.end()))
        place = behind_gap(text, match.end())
    return [*found, Word("end", "", len(text), len(text))]


class Reader:
    """Reads the tokens from the front."""

    def __init__(self, source: Source):
        self.source, self.words, self.at = source, words_of(source), 0
        self.found = Requirements(source)

    @property
    def word(self) -> Word:
        """The next one."""
        return self.words[self.at]

    def take(self) -> Word:
        """Takes the next one."""
        word = self.word
        self.at += word.kind != "end"
        return word

    def skips(self, *texts: str) -> Word | None:
        """Takes the next one, if it is one of these."""
        return self.take() if self.word.kind in ("word", "sign") and self.word.text in texts else None

    def wants(self, *texts: str) -> Word:
        """Takes the next one, which has to be one of these."""
        return self.skips(*texts) or self.refuse(" or ".join(texts))

    def refuse(self, wanted: str) -> Word:
        """No reading goes on here."""
        stands = self.source.words(self.word.span) if self.word.kind != "end" else "the end of the file"
        raise Unreadable(self.word.span, f"{stands} stands here, but {wanted} is expected")

    def file(self) -> Requirements:
        """The whole file."""
        while self.word.kind != "end":
            first = self.wants("FUNCTION", "REQUIRE", "MEASURE")
            if first.text == "FUNCTION":
                self.up_to("ENDFUNCTION", first, "FUNCTION", "REQUIRE", "MEASURE")
                self.found.functions.append(Span(first.begin, self.take().end))
            else:
                self.item(first)
        return self.found

    def up_to(self, mark: str, opened: Word, *never: str) -> Word:
        """Goes up to a mark, which isn't taken."""
        while self.word.text != mark or self.word.kind == "string":
            if self.word.kind == "end" or (self.word.kind == "word" and self.word.text in never):
                raise Unreadable(opened.span, f"what begins here has no {mark} after it")
            self.at += 1
        return self.word

    def item(self, first: Word) -> None:
        """A requirement or a measure."""
        name = self.take() if self.word.kind == "string" else self.refuse("its name in quotes")
        called = name.text[1:-1].encode("latin-1").decode("utf-8", "replace")
        if not called.strip() or len(called) > LONGEST_NAME or not called.isprintable():
            raise Unreadable(name.span, f"a name has 1 to {LONGEST_NAME} letters, all printable")
        if any(one.name == called for one in self.found.items):
            raise Unreadable(name.span, "another requirement or measure has that name")
        made = Requirement(called, name.text, Span(first.begin, name.end), name.span)
        if first.text == "MEASURE":
            made.how = self.wants(*HOW).text
        else:
            self.clauses(made)
        if opened := self.skips("WHEN"):
            made.when = self.expression(":", opened)
        opened = self.wants(":")
        made.expression = self.expression(";", opened)
        self.wants(";")
        self.found.items.append(made)

    def clauses(self, made: Requirement) -> None:
        """How often it is to hold."""
        while True:
            if self.skips("HOLDS"):
                self.share(made)
            elif self.skips("FAILS"):
                self.most(made)
            elif not self.skips("ALWAYS"):
                if self.word.text not in ("WHEN", ":"):
                    self.refuse("ALWAYS, HOLDS, FAILS, WHEN or :")
                return
            if not self.skips(","):
                return

    def share(self, made: Requirement) -> None:
        """Behind HOLDS."""
        first = self.word
        percent = Fraction(self.number().text)
        if self.skips("."):
            places = self.number().text
            percent += Fraction(int(places), 10 ** len(places))
        if not percent <= 100:
            raise Unreadable(first.span, "a share is at most 100 %")
        self.wants("%")
        if not self.skips("OF"):
            made.clauses.append(Share(percent))
        elif self.skips("TRACES"):
            made.traces = percent
        else:
            made.clauses.append(Share(percent, self.period()))

    def most(self, made: Requirement) -> None:
        """Behind FAILS."""
        self.wants("AT")
        self.wants("MOST")
        count = int(self.number().text)
        period = "timestep" if self.word.text in ("IN", ",", "WHEN", ":") else self.period()
        if not self.skips("IN"):
            made.clauses.append(Most(count, period))
        elif self.skips("A"):
            self.wants("ROW")
            made.clauses.append(Most(count, period, in_a_row=True))
        else:
            first = self.word
            window = int(self.number().text)
            if self.word.text not in (",", "WHEN", ":") and self.period() != period:
                raise Unreadable(first.span, f"both are to be counted in {period}s")
            if not 1 <= window <= 4096:
                raise Unreadable(first.span, f"1 to 4,096 {period}s can follow one another")
            made.clauses.append(Most(count, period, window))

    def number(self) -> Word:
        """A whole number."""
        return self.take() if self.word.kind == "number" else self.refuse("a number")

    def period(self) -> str:
        """TIMESTEPS, MONTHS, YEARS or WATER YEARS."""
        if self.skips("WATER"):
            self.wants("YEARS", "YEAR")
            return "water year"
        return self.wants("TIMESTEPS", "MONTHS", "YEARS", "TIMESTEP", "MONTH", "YEAR").text.lower().removesuffix("s")

    def expression(self, mark: str, opened: Word) -> Span:
        """What stands up to a mark."""
        begin = self.word.begin
        end = self.up_to(mark, opened, "REQUIRE", "MEASURE", "FUNCTION")
        if end.begin == begin:
            self.refuse("an expression")
        return Span(begin, self.words[self.at - 1].end)

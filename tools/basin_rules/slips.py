"""Where tokens spell no ruleset: what stands there, what is expected, and what may be meant."""

from dataclasses import dataclass

from basin_files.formats import GREATEST_QUANTITY, RESERVED_WORDS

from . import meant
from .findings import Finding
from .grammar import COMPARISON, DEEPEST, EXPRESSION, OPERATORS, STATEMENT, NoReading, TooDeep
from .measures import UNITS
from .places import Source, Span, readable
from .tokens import DIGITS, BadToken, Token

ENDS = {"RULE": "ENDRULE", "FUNCTION": "ENDFUNCTION", "IF": "ENDIF", "WITH": "ENDWITH", "LET": "ENDLET"}
ENDS |= {"FOR": "ENDFOR", "MAP": "ENDMAP"}
NO_NUMBER = "values are whole numbers in base units: 1500 \"mm\" for 1.5 m, and x * 15 / 10 for 1.5 times x"
AT_T = "`[t]`, this timestep, or in a model of `format = 2` `[t + 3]`, three of them ahead, without a unit"
# Signs that aren't there, and what is here for them.
OTHER_SIGNS = {
    "@": 't, or t - 1 "step", in the brackets: [t - 1 "step"]; of a date MONTH(t) = 4 AND DAY(t) = 1',
    "'": 'a string is between two "',
    "“": 'the straight quote "',
    "”": 'the straight quote "',
    "„": 'the straight quote "',
    "!": "NOT, or <> for unequal",
    "&": "AND",
    "|": "OR",
    "%": "x * 30 / 100 for 30 percent of x",
    "^": "x * x: there are no powers",
    "−": "the sign -",
    "–": "the sign -",
    "×": "the sign *",
    "·": "the sign *",
    "÷": "the sign /",
    "≤": "<=",
    "≥": ">=",
    "≠": "<>",
    "²": "x * x, or the unit m3/mm for an area",
    "³": 'the unit "m3"',
    "\u00a0": "an ordinary space: this one is a no-break space",
}
# Words of other languages, and what is here for them.
OTHER_WORDS = {
    "ELSEIF": "ELSE IF, and one more ENDIF at the end: each IF has its own",
    "ELSIF": "ELSE IF, and one more ENDIF at the end: each IF has its own",
    "ELIF": "ELSE IF, and one more ENDIF at the end: each IF has its own",
    "FOREACH": "FOR x IN list WITH a := start DO .. ENDFOR, which is a value; a statement for each slot that is set",
    "WHILE": "FOR over a list with as many items as there can be turns",
    "PRINT": "a slot of a data object that a rule sets: it is a column of the table",
    "STOP_RUN": "a bound of a data object's slot: a value outside it stops the run",
    "RETURN": "the expression alone: a function is one expression",
    "IsNaN": "NOT KNOWN(Object.Slot[t])",
    "ISNAN": "NOT KNOWN(Object.Slot[t])",
    "MOD": "x - x / n * n",
    "BEGIN": "nothing: the statements come directly after the :",
    "VAR": "WITH name := value DO .. ENDWITH",
}
OTHER_TYPES = {
    "OBJECT": "SLOT \"m3\": there are no values that are objects",
    "STRING": "there are no strings as values",
    "BOOL": "BOOLEAN",
    "DATE": "DATETIME",
    "INTEGER": 'NUMERIC ""',
    "INT": 'NUMERIC ""',
    "FLOAT": 'NUMERIC ""',
    "REAL": 'NUMERIC ""',
}


def listed(words: list[str], last: str = "or") -> str:
    """Words in a row: a, b or c."""
    *others, end = words
    return f"{', '.join(others)} {last} {end}" if others else end


# ---- tokens


def of_token(bad: BadToken, source: Source) -> tuple[str, str]:
    """What is told of a place that has no token, and what may be meant."""
    if bad.sort == "string":
        return "the string is not closed in its line", 'a " is missing, or one is too many before it'
    if bad.sort == "number":
        digits = bad.span.end - bad.span.begin
        if digits > DIGITS:
            return f"the number has {digits} digits, but at most {DIGITS} are allowed", ""
        return f"the number is above 10^17 = {GREATEST_QUANTITY:,}", ""
    mark, begin = source.content[:3], bad.span.begin
    if begin == 0 and mark[:2] in (b"\xff\xfe", b"\xfe\xff"):
        return "the file is UTF-16, and a ruleset is UTF-8", "save it as UTF-8"
    if begin == 0 and mark == b"\xef\xbb\xbf":
        says = "the file begins with a byte order mark, which a ruleset must not have"
        return says, "save it as UTF-8 without a mark"
    letter = source.content[begin : begin + 4].decode("utf-8", "replace")[:1]
    said = readable(letter.encode()) if letter.isprintable() else f"the byte {source.content[begin]:#04x}"
    hint = OTHER_SIGNS.get(letter, "")
    if not hint and letter.isalpha():
        hint = "a name with the letters A to Z and a to z; comments and strings may have all letters"
    return f"{said if len(said) > 1 else f'`{said}`'} is not a symbol of the language", hint


# ---- grammar


@dataclass
class Stop:
    """Where no reading goes on: the tokens of the declaration, and what may stand there."""

    piece: list[Token]
    wrong: NoReading
    source: Source

    def token(self, back: int = 0) -> Token | None:
        """The token there, or so many before it; `None` where there is none."""
        at = self.wrong.at - back
        return self.piece[at] if 0 <= at < len(self.piece) else None

    def there(self, back: int = 0) -> Token:
        """The same where there is one."""
        token = self.token(back)
        assert token
        return token

    def wants(self, *words: str) -> bool:
        """Whether one of these may stand there."""
        return any(word in self.wrong.wanted for word in words)

    def is_mark(self, back: int, *texts: str) -> bool:
        """Whether the token there, or so many before it, is one of these marks."""
        token = self.token(back)
        return token is not None and token.is_mark(*texts)

    def is_kind(self, back: int, kind: str) -> bool:
        """Whether it is of a kind."""
        token = self.token(back)
        return token is not None and token.kind == kind

    def touches(self) -> bool:
        """Whether no blank stands between the token there and the one before it."""
        here, before = self.token(), self.token(1)
        return here is not None and before is not None and before.end == here.begin

    def line(self, span: Span) -> int:
        """The line of a span."""
        return self.source.line(span.begin)


def of_grammar(refusal: str, wrong: NoReading | TooDeep, piece: list[Token], source: Source) -> Finding:
    """What is told of tokens that are no declaration."""
    if isinstance(wrong, TooDeep):
        return Finding(refusal, wrong.span, *of_depth(wrong))
    stop = Stop(piece, wrong, source)
    end = piece[-1].end
    here = stop.token()
    span = here.span if here else Span(end, end)
    return Finding(refusal, span, expected(stop), next(filter(None, (hint(stop) for hint in HINTS)), ""))


def of_depth(wrong: TooDeep) -> tuple[str, str]:
    """What is told of forms within forms that are too many, and what may be meant."""
    says = f"expressions and statements are nested more than {DEEPEST} deep here"
    if wrong.chain > DEEPEST // 2:
        says += f": this is the {wrong.chain}th operator in a row, and each of them is a level"
        return says, "brackets around parts of the row, (a + b) + (c + d), or a FOR over a list"
    return says, "a function for a part of it, or WITH and LET one after another"


def expected(stop: Stop) -> str:
    """What stands there, and what is expected."""
    token = stop.token()
    here = f"`{stop.source.words(token.span, 30)}` stands here" if token else "the text ends here"
    wanted = [word if " " in word else f"`{word}`" for word in stop.wrong.wanted]
    says = f"{here}, but {listed(wanted)} is expected"
    forms = [word for word in stop.wrong.going if " " in word]
    signs = [word for word in stop.wrong.going if " " not in word]
    going = forms + ([f"one of {' '.join(signs)}"] if signs else [])
    return f"{says}, or {listed(going)}" if going else says


# ---- what may be meant: each of these answers a hint, or ""


def brackets(stop: Stop) -> str:
    """RPL's `Dam.Outflow[]`."""
    return "`[t]`, at this timestep" if stop.is_mark(0, "]") and stop.is_mark(1, "[") else ""


def assignment(stop: Stop) -> str:
    """`=` for `:=`, and a slot that is set without `[t]`."""
    if stop.wants("[") and stop.is_mark(0, ":=", "=") and stop.is_mark(2, "."):
        return f"`{stop.there(3).text}.{stop.there(1).text}[t] :=`, at this timestep"
    if stop.wants(":=") and stop.is_mark(0, "=", ":"):
        return "`:=`, which sets; `=` compares"
    if stop.is_mark(0, "=") and stop.is_mark(1, "=", "<", ">"):
        return "`=`, `<=` or `>=`, each of which is one symbol"
    return ""


def small_letters(stop: Stop) -> str:
    """`if` for `IF`."""
    for back in (0, 1):
        token = stop.token(back)
        if token and token.kind == "name" and token.text.upper() in RESERVED_WORDS:
            return f"`{token.text.upper()}`, in capitals"
    return ""


def two_words(stop: Stop) -> str:
    """`END IF` for `ENDIF`."""
    for back in (0, 1):
        token, behind = stop.token(back), stop.token(back - 1)
        if token and behind and token.kind == "name" and token.text.upper() == "END" and behind.text in ENDS:
            return f"`{ENDS[behind.text]}`, which is one word"
    return ""


def function_heads(stop: Stop) -> str:
    """`FUNCTION "Half" (NUMERIC x) RETURN NUMERIC IS`."""
    if stop.is_kind(0, "string") and stop.is_mark(1, "FUNCTION"):
        return "a name without quotes, as FUNCTION Half(NUMERIC \"m3\" x) : NUMERIC \"m3\" IS"
    if stop.is_kind(0, "name") and stop.there().text.upper() in ("RETURN", "RETURNS") and stop.is_mark(1, ")"):
        return "`:`, and after it the type that the function returns"
    return ""


def other_words(stop: Stop) -> str:
    """Words of other languages."""
    for back in (0, 1):
        if stop.is_kind(back, "name"):
            hint = OTHER_WORDS.get(stop.there(back).text, "")
            if hint:
                return hint
    return ""


def semicolon(stop: Stop) -> str:
    """`ENDIF;`."""
    if not stop.is_mark(0, ";"):
        return ""
    if stop.is_mark(1, "ENDIF", "ENDWITH", "THEN", "ELSE", "DO", ":", ";"):
        return f"no `;` behind `{stop.there(1).text}`"
    if stop.wrong.at == 0:
        return "no `;` after `ENDRULE` and `ENDFUNCTION`"
    return "no `;` here: a function is one expression" if stop.wants("ENDFUNCTION") else ""


def numbers(stop: Stop) -> str:
    """Decimals, marks of thousands, exponents, and units without quotes."""
    before, here, behind = stop.token(1), stop.token(), stop.token(-1)
    if not here:
        return ""
    if here.is_mark(".") and behind and behind.kind == "number":
        return NO_NUMBER
    if here.is_mark(".") and behind and behind.is_mark("."):
        return "a list of all items: there are no ranges"
    if not before or before.kind != "number":
        return ""
    if here.is_mark(",") and behind and behind.kind == "number" and len(behind.text) == 3:
        return f"`{before.text}{behind.text}`, without a thousands separator"
    if here.kind != "name":
        return ""
    if here.text[0] == "_" and stop.touches():
        return f"`{before.text}{here.text.replace('_', '')}`, without thousands separators"
    if here.text[0] in "eE" and here.text[1:].isdigit() and stop.touches():
        return "the number written out, with all its zeros"
    return unquoted(stop, before, here, behind)


def unquoted(stop: Stop, before: Token, here: Token, behind: Token | None) -> str:
    """A unit that stands behind a number without quotes."""
    whole = here.text
    last = stop.token(-2)
    if behind and behind.is_mark("/") and last and last.kind == "name":
        whole = f"{here.text}/{last.text}"
    unit = whole if whole in UNITS or whole in meant.OTHER_UNITS else here.text
    if unit in UNITS:
        return f'`{before.text} "{unit}"`: a unit is in quotes'
    return f"a unit in quotes: {meant.OTHER_UNITS[unit]}" if unit in meant.OTHER_UNITS else ""


def target(stop: Stop) -> str:
    """A slot that is set at another timestep."""
    if stop.wants("t") and stop.is_mark(1, "["):
        return AT_T
    if stop.wants("]") and (stop.wants("+") or stop.is_mark(2, "+")) and stop.is_mark(0, "-", "+"):
        return AT_T
    return AT_T if stop.wants("]") and stop.is_kind(0, "string") else ""


def slot(stop: Stop) -> str:
    """A slot without its object, with round brackets, or a name that is given a value."""
    if stop.wants(".") and stop.is_mark(0, "["):
        return f"`Object.{stop.there(1).text}[t]`, with the slot's object"
    if stop.wants(".") and stop.is_mark(0, ":=", "="):
        return f"`WITH {stop.there(1).text} := .. DO .. ENDWITH` gives a value a name"
    if stop.is_mark(0, "(") and stop.is_mark(2, "."):
        return f"`{stop.there(3).text}.{stop.there(1).text}[t]`, in square brackets"
    return ""


def not_ended(stop: Stop) -> str:
    """A form that is still open where another one begins or an outer one ends."""
    token, opened = stop.token(), stop.wrong.opened
    if not opened or (token and not token.is_mark("RULE", "FUNCTION", *ENDS.values())):
        return ""
    last, end = opened[-1], ENDS[opened[-1].word]
    where = f"the {last.word} of line {stop.line(last.span)}"
    if token and token.text == end:
        return "`ELSE` and a value: an IF within an expression has both" if stop.wants("ELSE") else ""
    if token and last.word in ("RULE", "FUNCTION") and token.is_mark("ENDRULE", "ENDFUNCTION"):
        return f"`{end}`, which ends {where}"
    more = " (an IF after an ELSE has its own)" if last.word == "IF" else ""
    return f"`{end}` {'before it' if token else 'at the end'}: {where} isn't ended{more}"


def missing_semicolon(stop: Stop) -> str:
    """A statement without its `;`."""
    before, here, behind = stop.token(1), stop.token(), stop.token(-1)
    if not stop.wants(";") or not before:
        return ""
    is_statement = here and here.kind == "name" and behind and behind.is_mark(".")
    is_word = here and here.is_mark("IF", "WITH", "ELSE", "RULE", "FUNCTION", *ENDS.values())
    if here and not is_statement and not is_word and stop.line(here.span) == stop.line(before.span):
        return ""
    return f"a `;` after `{stop.source.words(before.span, 30)}` in line {stop.line(before.span)}"


def expressions(stop: Stop) -> str:
    """Comparisons in a chain, empty lists, comments, and signs before a number."""
    here = stop.token()
    if not here:
        return ""
    if here.is_mark(*OPERATORS[COMPARISON]) and not stop.wants(EXPRESSION):
        return "`a < b AND b < c`: comparisons do not chain"
    if here.is_mark("}") and stop.is_mark(1, "{"):
        return "a list that has an item: there is no empty list"
    if here.is_mark("/", "*") and stop.is_mark(1, "/"):
        return "`#`, which begins a comment"
    if here.is_mark("NOT") and stop.wants(EXPRESSION):
        return "`(NOT ..)`, in brackets"
    if here.is_mark("IS") and stop.is_kind(-1, "name"):
        return "`NOT KNOWN(Object.Slot[t])`"
    if here.kind == "string" and stop.wants(EXPRESSION):
        return "a number: values cannot be strings, and a month is `MONTH(t) = 3`"
    if here.is_mark("+") and stop.wants(EXPRESSION):
        return "the number without `+`"
    if here.is_mark("/") and stop.wants(STATEMENT):
        return "`#`, which begins a comment"
    return ""


def heads(stop: Stop) -> str:
    """The head of a rule or of a function."""
    here = stop.token()
    if not here:
        return ""
    if stop.wants("its name in quotes") and here.kind == "name":
        return f'`RULE "{here.text}":`, with its name in quotes'
    if stop.wants("(") and stop.is_mark(2, "FUNCTION"):
        return f"`{stop.there(1).text}()`, with brackets also where there are no parameters"
    if stop.wants("NUMERIC") and here.kind == "name":
        return OTHER_TYPES.get(here.text, f'`NUMERIC "m3" {here.text}`: a type comes before the name')
    if stop.wants("a unit in quotes") and stop.is_mark(1, "NUMERIC", "SLOT"):
        return f'`{stop.there(1).text} "m3"`, with its unit, or `""` for a plain number'
    if here.kind == "mark" and here.text[0].isalpha() and stop.wants("a name"):
        return f"another name: the language reserves the word {here.text}"
    if stop.wants(":") and here.kind != "end":
        return "a `:` before it"
    if stop.wrong.at == 0:
        return 'a rule begins with `RULE "name":`, and a function with `FUNCTION name(..) : type IS`'
    return ""


HINTS = (
    brackets,
    two_words,
    function_heads,
    other_words,
    small_letters,
    assignment,
    semicolon,
    numbers,
    target,
    slot,
    expressions,
    heads,
    not_ended,
    missing_semicolon,
)

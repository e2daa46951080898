"""Which name stands for what: objects, slots, functions and the names that a form gives, from the tokens alone.

So it also works in a text that is half written.
"""

from dataclasses import dataclass

from basin_files.firing import PREDEFINED

CONVERSIONS = ("StorageToElevation", "ElevationToStorage")
ENDS = {"ENDLET": "LET", "ENDFOR": "FOR", "ENDMAP": "MAP", "ENDWITH": "WITH"}
TYPES = ("NUMERIC", "BOOLEAN", "DATETIME", "SLOT", "LIST", "OF")


@dataclass
class Use:
    """A name in a text: its `sort` (object, slot, function, predefined, local, parameter, rule), and where it is made.

    `whose` is of a slot its object; `home` is of a local or a parameter the byte at which it is made, -1 where it
    isn't; `makes` tells whether the name is made here; `sets` whether a slot is set here.
    """

    sort: str
    text: str
    begin: int
    end: int
    whose: str = ""
    home: int = -1
    makes: bool = False
    sets: bool = False

    @property
    def key(self):
        """What is the same for all uses of one thing."""
        if self.sort in ("local", "parameter"):
            return ("local", self.home)
        if self.sort == "slot":
            return ("slot", f"{self.whose}.{self.text}")
        return (self.sort, self.text)


@dataclass
class Form:
    """A form that is begun: its word, the names that it makes, and whether they are known yet."""

    word: str
    names: dict
    known: bool = False


def uses_of(tokens):
    """The names of a text, in its order."""
    return Naming(tokens).all()


class Naming:
    """Goes through the tokens once, with the forms that are open."""

    def __init__(self, tokens):
        self.tokens, self.at = tokens, 0
        self.forms, self.parameters, self.heading, self.found = [], {}, False, []

    def look(self, by):
        """The token so many places away."""
        at = self.at + by
        return self.tokens[at] if 0 <= at < len(self.tokens) else None

    def is_mark(self, by, *texts):
        """Whether the token there is one of these marks."""
        token = self.look(by)
        return bool(token) and token.is_mark(*texts)

    def all(self):
        """All names."""
        for self.at, token in enumerate(self.tokens):
            if token.kind == "mark":
                self.mark(token)
            elif token.kind == "name":
                self.name(token)
            elif token.kind == "string" and self.is_mark(-1, "RULE"):
                self.note("rule", token, makes=True)
        return self.found

    def note(self, sort, token, **more):
        """Notes a name."""
        self.found.append(Use(sort, token.text, token.begin, token.end, **more))

    def mark(self, token):
        """A word that begins or ends a form."""
        word = token.text
        if word in ("RULE", "FUNCTION"):
            self.forms, self.parameters, self.heading = [], {}, word == "FUNCTION"
        elif word == "IS":
            self.heading = False
        elif word in ("LET", "FOR", "MAP"):
            self.forms.append(Form(word, {}))
        elif word == "WITH":
            top = self.forms[-1] if self.forms else None
            if not (top and top.word == "FOR" and not top.known and len(top.names) < 2):
                self.forms.append(Form("WITH", {}))
        elif word in ("DO", "IN"):
            waiting = next((one for one in reversed(self.forms) if not one.known), None)
            if waiting and (word == "DO") == (waiting.word != "LET"):
                waiting.known = True
        elif word in ENDS:
            for place in range(len(self.forms) - 1, -1, -1):
                if self.forms[place].word == ENDS[word]:
                    del self.forms[place:]
                    break

    def name(self, token):
        """A name."""
        if self.is_mark(-1, "FUNCTION"):
            self.note("function", token, makes=True)
        elif self.is_mark(-1, ".") and self.look(-2) and self.look(-2).kind == "name":
            self.note("slot", token, whose=self.look(-2).text, sets=self.is_set())
        elif self.is_mark(1, "."):
            self.note("object", token)
        elif self.is_mark(-1, "(") and self.is_mark(-2, *CONVERSIONS):
            self.note("object", token)
        elif self.heading:
            self.parameters[token.text] = token.begin
            self.note("parameter", token, home=token.begin, makes=True)
        elif self.is_mark(1, "("):
            self.note("predefined" if token.text in PREDEFINED else "function", token)
        elif self.is_mark(-1, "LET", "WITH", "FOR", "MAP") and self.forms:
            self.forms[-1].names[token.text] = token.begin
            self.note("local", token, home=token.begin, makes=True)
        else:
            self.read(token)

    def read(self, token):
        """A name that stands for a value."""
        for form in reversed(self.forms):
            if form.known and token.text in form.names:
                self.note("local", token, home=form.names[token.text])
                return
        home = self.parameters.get(token.text, -1)
        self.note("parameter" if home >= 0 else "local", token, home=home)

    def is_set(self):
        """Whether a slot is set here: behind it stand `[t]` or `[t + 3]`, and `:=`."""
        if not (self.is_mark(1, "[") and self.is_mark(2, "t")):
            return False
        behind = 5 if self.is_mark(3, "+") else 3
        return self.is_mark(behind, "]") and self.is_mark(behind + 1, ":=")


def known_at(tokens, byte):
    """The names that stand for values at a place: each with the byte at which it is made."""
    naming = Naming([token for token in tokens if token.end <= byte])
    naming.all()
    names = dict(naming.parameters)
    for form in naming.forms:
        if form.known:
            names.update(form.names)
    return names

"""The layout of a ruleset: each declaration as it is always written, with all remarks where they were.

Words, names, numbers and strings stay as they are: blanks and line ends alone become other ones.
"""

from basin_files.program import Unable
from basin_rules import codefile
from basin_rules.grammar import CONVERSIONS, OF_ONE, OF_TWO
from basin_rules.places import Source

from .reading import lexed, read

NOT_GRAMMAR = ("bad token", "bad declaration", "too many")

WIDTH = 120  # letters of a line
STEP = 2  # of indentation
OPENS = {"(": ")", "{": "}", "[": "]", "IF": "ENDIF", "LET": "ENDLET", "FOR": "ENDFOR", "MAP": "ENDMAP", "WITH": "ENDWITH"}
LOOSE = [("OR",), ("AND",), ("=", "<>", "<", "<=", ">", ">="), ("+", "-"), ("*", "/")]
TIGHT_BEFORE = {";", ",", ")", "]", "}", ".", ":"}
TIGHT_BEHIND = {"(", "[", "{", "."}


class Same(Exception):
    """The layout can't be made without a change of what the text says."""


class Word:
    """A token as it is spelt, with the remarks before it and the one behind it."""

    def __init__(self, token, text):
        self.token, self.text = token, text
        self.before, self.behind = [], ""  # remarks on lines of their own before it, and that on its line
        self.breaks = 0  # line ends before it, or before its first remark

    def is_mark(self, *texts):
        """Whether it is one of these marks."""
        return self.token.is_mark(*texts)


def layout_of(content: bytes, path: str) -> bytes:
    """The bytes of a ruleset in its layout. `Unable` where they are code, or have a slip in their grammar."""
    if codefile.is_code(content):
        raise Unable(f"{path} is a file of code, which has no other layout")
    source = Source(path, content)
    wrong = next((one for one in read(source, None).findings if one.refusal.endswith(NOT_GRAMMAR)), None)
    if wrong:
        raise Unable(f"{path} {source.place(wrong.span.begin)}: {wrong.says}")
    try:
        return laid_out(source.text).encode("latin-1")
    except Same:
        raise Unable(f"{path} has no layout that says the same") from None


def laid_out(text):
    """A ruleset in its layout. `text` has a letter for each byte, and its grammar is in order."""
    tokens, comments, bads = lexed(text)
    if bads:
        raise Same
    words, last = words_of(text, tokens, comments)
    found = "".join(f"{line}\n" for line in Laying(words, last).lines)
    again, remarks, _ = lexed(found)
    if [(one.kind, one.text) for one in again] != [(one.kind, one.text) for one in tokens]:
        raise Same
    if [found[one.begin : one.end].rstrip() for one in remarks] != [text[one.begin : one.end].rstrip() for one in comments]:
        raise Same
    return found


def words_of(text, tokens, comments):
    """The words of a text with their remarks, and the remarks behind the last of them."""
    words = [Word(token, text[token.begin : token.end]) for token in tokens]
    own, place, behind = [], 0, 0  # remarks that wait for their word, the next word, and the end of what came last
    items = sorted([*words, *comments], key=lambda one: one.token.begin if isinstance(one, Word) else one.begin)
    breaks = 0
    for item in items:
        begin, end = (item.token.begin, item.token.end) if isinstance(item, Word) else (item.begin, item.end)
        lines = text.count("\n", behind, begin)
        if isinstance(item, Word):
            item.before, item.breaks = own, breaks if own else lines
            if own:
                own.append(("", lines))  # how many line ends stand before the word itself
            own, place, breaks = [], place + 1, 0
        else:
            remark = text[begin:end].rstrip()
            if not own and not lines and place and not words[place - 1].behind:
                words[place - 1].behind = remark
            else:
                breaks = breaks if own else lines
                own.append((remark, lines))
        behind = end
    return words, own


class Laying:
    """Writes words line by line."""

    def __init__(self, words, last):
        self.words, self.at, self.lines = words, 0, []
        self.line, self.indent, self.closed = "", 0, False  # `closed`: a remark ends the line
        self.fresh = True  # whether nothing stands above that a blank line would part from this
        while self.at < len(words):
            self.declaration()
        for remark, breaks in last:
            if breaks > 1:
                self.blank()
            self.put_line(remark)
        self.end()

    # ---- lines

    def end(self):
        """Ends the line, if there is one."""
        if self.line:
            self.lines.append(self.line.rstrip())
        self.line, self.closed = "", False

    def blank(self):
        """One blank line, but not at the beginning and not behind another one."""
        self.end()
        if self.lines and self.lines[-1] and not self.fresh:
            self.lines.append("")

    def put_line(self, text):
        """A line of its own."""
        self.end()
        self.lines.append(" " * self.indent + text)
        self.fresh = False

    def put(self, word, blank):
        """Puts a word, behind a blank or not; its remarks end lines."""
        remarks = [one for one in word.before if one[0]]
        for number, (remark, breaks) in enumerate(remarks):
            if breaks > 1 and (number or not self.line):
                self.blank()
            self.put_line(remark)
        if remarks and word.before[-1][1] > 1 and not self.line:
            self.blank()
        if self.closed:
            self.end()
        if not self.line:
            self.line = " " * self.indent + word.text
        else:
            self.line += (" " if blank else "") + word.text
        self.fresh = False
        if word.behind:
            self.line += f"  {word.behind}"
            self.closed = True

    # ---- declarations and statements

    @property
    def word(self):
        """The next word."""
        return self.words[self.at]

    def upto(self, *ends):
        """The words up to one of these, which stands within no other form, and that one."""
        begin, depth = self.at, 0
        while True:
            word = self.words[self.at]
            self.at += 1
            if not depth and word.is_mark(*ends):
                return self.words[begin : self.at]
            depth = deeper(word, self.words[self.at - 2] if self.at - 2 >= begin else None, depth)

    def declaration(self):
        """A rule or a function."""
        begin = self.at
        end = next(at for at in range(begin, len(self.words)) if self.words[at].is_mark("ENDRULE", "ENDFUNCTION"))
        words = self.words[begin : end + 1]
        on_one_line = not any(one.breaks or one.before for one in words[1:]) and not any(one.behind for one in words[:-1])
        flat = flat_of(words)
        self.end()
        self.indent = 0
        if self.lines and (self.word.breaks > 1 or not self.short or not (on_one_line and len(flat) <= WIDTH)):
            self.blank()
        self.short = on_one_line and len(flat) <= WIDTH
        if self.short:
            self.all(words)
            self.end()
            self.at = end + 1
            return
        if self.word.is_mark("RULE"):
            self.all(self.upto(":"))
            self.end()
            self.fresh = True
            self.statements(STEP)
        else:
            self.function(end)
        self.indent = 0
        self.end()
        self.put(self.words[end], False)
        self.end()
        self.at = end + 1

    short = False

    def function(self, end):
        """A function: its head, and its expression below it."""
        head = self.at
        while not self.words[self.at].is_mark("IS"):
            self.at += 1
        self.at += 1
        self.expression(self.words[head : self.at], 0, 4)
        self.end()
        self.fresh = True
        self.expression(self.words[self.at : end], STEP)
        self.at = end

    def statements(self, indent):
        """Statements up to the word that ends them, which isn't taken."""
        while not self.word.is_mark("ENDRULE", "ELSE", "ENDIF", "ENDWITH"):
            self.end()
            self.indent = indent
            if self.word.breaks > 1:
                self.blank()
            if self.word.is_mark("IF"):
                self.branch(indent)
            elif self.word.is_mark("WITH"):
                self.naming(indent)
            else:
                self.expression(self.upto(";"), indent)
                self.end()

    def branch(self, indent):
        """An IF of statements, with each IF that is all that stands behind an ELSE on the line of that ELSE."""
        ends = 1
        self.expression([self.words[self.at], *self.behind("THEN")], indent)
        self.inner(indent)
        while self.word.is_mark("ELSE"):
            self.end()
            self.indent = indent
            self.put(self.word, False)
            self.at += 1
            if not self.goes_on():
                self.inner(indent)
                break
            self.broken([self.words[self.at], *self.behind("THEN")], indent, blank=True)
            self.inner(indent)
            ends += 1
        self.closing(indent, ends)

    def inner(self, indent):
        """The statements below a head."""
        self.end()
        self.fresh = True
        self.statements(indent + STEP)

    def goes_on(self):
        """Whether an IF is all that stands behind the ELSE that was taken last, with no remark between them."""
        if not self.word.is_mark("IF") or self.word.before or self.words[self.at - 1].behind:
            return False
        return self.words[closing_at(self.words, self.at) + 1].is_mark("ENDIF")

    def behind(self, end):
        """The words behind the next one up to a word."""
        self.at += 1
        return self.upto(end)

    def naming(self, indent):
        """A WITH of statements."""
        self.expression([self.words[self.at], *self.behind("DO")], indent)
        self.inner(indent)
        self.closing(indent)

    def closing(self, indent, count=1):
        """The words that end forms of statements, in a row."""
        self.end()
        self.indent = indent
        for number in range(count):
            self.put(self.word, bool(number))
            self.at += 1
        self.end()

    # ---- expressions

    def all(self, words):
        """Puts words in a row."""
        for number, word in enumerate(words):
            self.put(word, bool(number) and apart(words, number))

    def expression(self, words, indent, more=STEP):
        """Puts words on one line where they fit, and else on several ones."""
        self.end()
        self.indent = indent
        self.broken(words, indent, more)
        self.indent = indent

    def fits(self, words, room=0):
        """Whether words fit on the line that is begun."""
        if any(one.before for one in words[1:]) or any(one.behind for one in words[:-1]) or (self.closed and self.line):
            return False
        if words and words[0].before and self.line:
            return False
        used = len(self.line) + 1 if self.line else self.indent
        return used + len(flat_of(words)) + room <= WIDTH

    def broken(self, words, indent, more=STEP, blank=False):
        """Puts words that may want several lines; what goes on is indented."""
        if not words:
            return
        if self.fits(words):
            self.put(words[0], blank)
            for number in range(1, len(words)):
                self.put(words[number], apart(words, number))
            return
        parts, operators = parted(words)
        if len(parts) > 1:
            self.in_a_row(parts, operators, indent, blank)
            return
        self.forms(words, indent, blank)

    def in_a_row(self, parts, operators, indent, blank):
        """Parts with marks between them: a mark that sets or a comma ends a line, an operator begins one."""
        inner = indent + STEP
        self.broken_part(parts[0], indent, blank)
        for operator, part in zip(operators, parts[1:]):
            if operator.is_mark(":="):
                self.put(operator, True)
                if not self.fits(part):
                    self.end()
                self.indent = inner if not self.line else indent
                self.broken(part, inner if not self.line else indent, blank=True)
            elif operator.is_mark(","):
                self.put(operator, False)
                if not self.fits(part, 1):
                    self.end()
                    self.indent = indent
                self.broken(part, indent, blank=bool(self.line))
            else:
                if not self.fits([operator, *part], 1):
                    self.end()
                    self.indent = inner
                self.put(operator, bool(self.line))
                self.broken(part, inner, blank=True)
        self.indent = indent

    def broken_part(self, part, indent, blank):
        """The first of several parts."""
        self.broken(part, indent, blank=blank)

    def forms(self, words, indent, blank):
        """Words that are forms: each word that opens one, what is in it, and the word that ends it."""
        at = 0
        while at < len(words):
            word = words[at]
            gap = blank if not at else apart(words, at)
            end = closing_at(words, at)
            if end is None or self.fits(words[at : end + 1]):
                stop = at if end is None else end
                for number in range(at, stop + 1):
                    self.put(words[number], gap if number == at else apart(words, number))
                at = stop + 1
                continue
            if word.is_mark("(", "{", "["):
                self.put(word, gap)
                if word.is_mark("{") and not self.closed:
                    self.broken(words[at + 1 : end], len(self.line) if len(self.line) <= WIDTH // 2 else indent + STEP)
                else:
                    self.end() if word.is_mark("(") and not self.fits(words[at + 1 : at + 2], WIDTH // 2) else None
                    self.indent = indent + STEP
                    self.broken(words[at + 1 : end], indent + STEP)
                self.indent = indent + STEP
                self.put(words[end], False)
            else:
                self.of_words(words[at : end + 1], indent, gap)
            at = end + 1

    def head(self, words, base, blank):
        """The head of a form; that of a FOR may go on with its WITH on a line more."""
        depths, depth = [], 0
        for word in words[1:]:
            depths.append(depth)
            depth = deeper(word, None, depth)
        cut = len(words)
        if words[0].is_mark("FOR"):
            cut = next(at for at, word in enumerate(words[1:], 1) if word.is_mark("WITH") and not depths[at - 1])
        self.put(words[0], blank)
        self.indent = base + STEP
        self.broken(words[1:cut], base + STEP, blank=True)
        if words[cut:]:
            if not self.fits(words[cut:], 3):
                self.end()
                self.indent = base + 2 * STEP
            self.broken(words[cut:], base + 2 * STEP, blank=True)

    def of_words(self, words, indent, blank):
        """IF, LET, FOR or MAP: its head, what is in it on lines of its own, and its end."""
        parts, begin = [], 0
        stops = {"IF": ("THEN", "ELSE"), "LET": ("IN",), "FOR": ("DO",), "MAP": ("DO",)}[words[0].text]
        depth = 0
        for at, word in enumerate(words[1:-1], 1):
            if not depth and word.is_mark(*stops):
                parts.append(words[begin : at + 1])
                begin = at + 1
            depth = deeper(word, words[at - 1], depth)
        parts.append(words[begin:-1])
        base = self.indent if not self.line else indent
        chained = False
        for number, part in enumerate(parts):
            chained = number == 2 and is_one_if(part) and not parts[1][-1].behind
            if number and not chained:
                self.end()
                self.indent = base + STEP
            *inner, last = part if number < len(parts) - 1 else [*part, None]
            if chained:
                self.of_words(part, base, True)
            elif not number:
                self.head(inner, base, blank)
            else:
                self.broken(inner, base + STEP)
            if last:
                if last.is_mark("ELSE"):
                    self.end()
                    self.indent = base
                self.put(last, True)
        if not chained:
            self.end()
            self.indent = base
        self.put(words[-1], chained)


def is_one_if(words):
    """Whether words are one IF with no remark before it."""
    return bool(words) and words[0].is_mark("IF") and not words[0].before and closing_at(words, 0) == len(words) - 1


def deeper(word, before, depth):
    """How many forms are open behind a word. The WITH of a FOR opens none: DO tells, and so it counts as its end."""
    if word.is_mark("(", "{", "[", "IF", "LET", "FOR", "MAP"):
        return depth + 1
    if word.is_mark(")", "}", "]", "ENDIF", "ENDLET", "ENDFOR", "ENDMAP"):
        return depth - 1
    return depth


def closing_at(words, at):
    """The place of the word that ends the form which a word opens, or `None`."""
    depth = deeper(words[at], None, 0)
    if depth < 1:
        return None
    for place in range(at + 1, len(words)):
        depth = deeper(words[place], None, depth)
        if not depth:
            return place
    return None


def parted(words):
    """The parts of words at their loosest marks, and these marks."""
    for marks in ([":="], [","], *LOOSE):
        parts, operators, depth, begin = [], [], 0, 0
        for at, word in enumerate(words):
            if not depth and at and word.is_mark(*marks) and is_between(words, at):
                parts.append(words[begin:at])
                operators.append(word)
                begin = at + 1
            depth = deeper(word, None, depth)
        if parts and words[begin:]:
            return [*parts, words[begin:]], operators
    return [words], []


def is_between(words, at):
    """Whether a mark stands between two values, so that `-` is no sign."""
    before = words[at - 1]
    return before.token.kind in ("name", "number", "string") or before.is_mark(
        ")", "]", "}", "ENDIF", "ENDLET", "ENDFOR", "ENDMAP", "t", "TRUE", "FALSE"
    )


def apart(words, at):
    """Whether a blank stands before a word."""
    word, before = words[at], words[at - 1]
    if word.is_mark(":") and at > 1 and before.is_mark(")"):
        return True
    if word.token.kind == "mark" and word.text in TIGHT_BEFORE:
        return False
    if before.token.kind == "mark" and before.text in TIGHT_BEHIND:
        return False
    if word.is_mark("("):
        return not (before.token.kind == "name" or before.is_mark(*OF_ONE, *OF_TWO, *CONVERSIONS))
    if word.is_mark("["):
        return before.is_mark(":=")
    if before.is_mark("-") and not is_between(words, at - 1):
        return False
    return True


def flat_of(words):
    """Words on one line."""
    return "".join((" " if number and apart(words, number) else "") + word.text for number, word in enumerate(words))

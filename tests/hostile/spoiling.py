"""Ways in which the text of a file is spoilt: of tokens, numbers, lines and bytes, by a piece of another file, by depth
and by length. Each takes draws and a `Text`, and answers other bytes."""

import random
import re
import sys
from dataclasses import dataclass
from pathlib import Path

sys.path.insert(0, str(Path(__file__).resolve().parents[2] / "tools"))

from basin_files.formats import GREATEST_FILE, GREATEST_QUANTITY  # noqa: E402

Q = GREATEST_QUANTITY
NUMBERS = (
    "0 1 2 -1 30 31 64 65 100 101 200 201 255 256 4095 4096 4097 10000000 10000001 1.5 1e3 1e400 0x10 1_000 +5"
    f" -0 007 nan inf {Q} {Q + 1} {-Q} {-Q - 1} {2**31} {2**32} {2**63 - 1} {2**63} {2**64} {'9' * 18} {'9' * 19}"
    f" {'9' * 40} {'0' * 18}1"
).split() + [""]
RULE_TOKENS = (
    "RULE ENDRULE FUNCTION ENDFUNCTION IS IF THEN ELSE ENDIF WITH DO ENDWITH LET IN ENDLET FOR ENDFOR MAP ENDMAP AND OR"
    " NOT TRUE FALSE KNOWN APPEND ITEM LENGTH MONTH DAY YEAR StorageToElevation ElevationToStorage NUMERIC BOOLEAN"
    ' DATETIME SLOT LIST OF t Min Max Abs Clamp RoundDown Sign MulDiv := : ; , . ( ) { } [ ] + - * / = <> < <= > >='
    ' "m3" "m3/step" "step" "mm" "kWh" "" "dam3" "Mm3" "none" # "x'
).split()
MODEL_TOKENS = (
    "format run start step steps agenda object_limit rule_limit object link bound name kind slots unit lag history"
    " local_inflow diversion return_flow initial_storage table evaporation max_release depletion supply seepage"
    " tailwater power initial_content release slot min max true false [[object]] [[link]] [[bound]] [run] [ ] { } = , ."
    ' # """ \'\'\' "data" "gage" "confluence" "bifurcation" "reach" "reservoir" "water_user" "canal" "power_reservoir"'
    ' "routed_reach" "1h" "6h" "12h" "24h" "1month" "123" "321" "request" "rule" "m3" "m3/step" "Dam.Inflow" "Dam" "if"'
    ' "2020-01-01T00:00" 2020-01-01T00:00 "\\u0000" "\\e"'
).split()
CODE_TOKENS = (
    "CODE RULE FUNCTION LOCALS END N B D S N*1 N*2 N*4096 N*4097 S*1 S*4096 - num bool now slot load store add sub mul"
    " div neg shift back between eq lt le deq dlt dle not read known month day year toelevation tostorage call invoke"
    " list append widen item length jump branch target foreach next map yield put true false Min Max"
).split()
ROW_TOKENS = ["batch", "slot", "step", "value", "trace", ",", '"', '""', "-", "1-3", "3-1", "1-", "-1"]
ROW_TOKENS += ["\r\n", "\r", "\n\n", " ", ";", "=1+1", "@SUM(A1)"]
MARK = b"\xef\xbb\xbf"
BYTES = [b"\0", b"\xff", b"\xfe", MARK, b"\r", b"\n", b"\r\n", b"\t", b"\x1b[31m", b'"', b"'", b"\\", b"%s%n", b"\xc3"]
BYTES += [b"\xe2\x80\xae", b"\x80", b"`id`", b"$(id)", b";", b"#"]
FIRST = [MARK, MARK + MARK, b"\n", b"\0", b" ", b"#\n", b"CODE 1\n"]
DEPTHS = [1, 2, 5, 20, 48, 49, 50, 90, 96, 97, 98, 99, 100, 101, 102, 150, 400, 5_000, 100_000]
LENGTHS = [30, 31, 32, 33, 34, 100, 255, 256, 4_096, 65_535, 65_536, 65_537, 300_000]
MOST_LINES = 20_000
TOKEN = re.compile(rb"[A-Za-z_][A-Za-z0-9_]*|[0-9]+|[ \t]+|\n|[^A-Za-z0-9_\s]|\s", re.DOTALL)
NUMBER = re.compile(rb"(?<![\w.-])[0-9]+(?![\w-])")

Case = dict[str, bytes]  # the bytes of its files, by sort: model, policy, inputs, edits, traces
Draw = random.Random


@dataclass(frozen=True)
class Text:
    """The text that is spoilt: its sort, its bytes, the model beside it, and the cases of which pieces are taken."""

    sort: str
    content: bytes
    model: bytes
    corpus: list[Case]

    @property
    def code(self) -> bool:
        """Whether it is code."""
        return self.sort == "policy" and self.content.startswith(b"CODE")

    def tokens(self) -> list[str]:
        """Tokens that such a text may have."""
        if self.sort == "policy":
            return CODE_TOKENS if self.code else RULE_TOKENS
        return MODEL_TOKENS if self.sort == "model" else ROW_TOKENS


def slot_in(draw: Draw, model: bytes) -> str:
    """Some Object.Slot that a model may have."""
    names = re.findall(rb'name *= *"([A-Za-z_0-9]+)"', model) or [b"Dam"]
    slots = ["Inflow", "Outflow", "Storage", "GageInflow", "Diversion", "X"]
    return f"{draw.choice(names).decode()}.{draw.choice(slots)}"


def of_bytes(draw: Draw, text: Text) -> bytes:
    """Bytes are turned, put in, taken out, doubled, cut off."""
    made = bytearray(text.content)
    for _ in range(draw.choice([1, 1, 2, 4])):
        begin = draw.randrange(len(made) + 1)
        end = min(len(made), begin + draw.choice([1, 1, 2, 8, 100]))
        way = draw.randrange(7)
        if way == 0 and begin < len(made):
            made[begin] ^= 1 << draw.randrange(8)
        elif way == 1:
            made[begin:begin] = draw.choice(BYTES) * draw.choice([1, 1, 2, 40])
        elif way == 2:
            del made[begin:end]
        elif way == 3:
            made[begin:begin] = made[begin:end] * draw.choice([1, 2, 9])
        elif way == 4:
            del made[begin:]
        elif way == 5:
            made[begin:end] = draw.randbytes(end - begin)
        else:
            made[:0] = draw.choice(FIRST)
    return bytes(made)


def of_tokens(draw: Draw, text: Text) -> bytes:
    """Tokens become others, go, come twice, change places."""
    found = TOKEN.findall(text.content)
    if not found:
        return text.content
    solid = [place for place, token in enumerate(found) if token.strip()] or [0]
    for _ in range(draw.choice([1, 1, 1, 2, 3])):
        place, other, way = draw.choice(solid), draw.choice(solid), draw.random()
        if way < 0.3 and found[place][:1].isdigit() or way < 0.05:
            found[place] = draw.choice(NUMBERS).encode()
        elif way < 0.55:
            found[place] = draw.choice(text.tokens()).encode()
        elif way < 0.75:
            found[place] = found[other]
        elif way < 0.85:
            found[place] = b""
        elif way < 0.93:
            found[place] += b" " + found[place]
        else:
            found[place], found[other] = found[other], found[place]
    return b"".join(found)


def of_values(draw: Draw, text: Text) -> bytes:
    """Numbers become others that are likely to be taken, so that runs are judged, and not only refusals."""
    places = [found.span() for found in NUMBER.finditer(text.content)]
    made = bytearray(text.content)
    for begin, end in sorted(draw.sample(places, min(len(places), draw.choice([1, 1, 2, 3, 8]))), reverse=True):
        old, other = (int(text.content[slice(*place)][:18]) for place in ((begin, end), draw.choice(places)))
        near = [old + 1, max(0, old - 1), old * 2, old // 2, draw.randrange(1 + old * 3)]
        made[begin:end] = str(draw.choice([*near, 0, 1, 10 ** draw.randrange(18), other])).encode()
    return bytes(made)


def of_lines(draw: Draw, text: Text) -> bytes:
    """Lines go, come twice and many times, change places."""
    lines = text.content.split(b"\n")
    for _ in range(draw.choice([1, 1, 2, 3])):
        place, other, way = draw.randrange(len(lines)), draw.randrange(len(lines)), draw.randrange(5)
        if way == 0 and len(lines) > 1:
            del lines[place]
        elif way == 1:
            lines.insert(other, lines[place])
        elif way == 2:
            lines[place], lines[other] = lines[other], lines[place]
        elif way == 3:
            lines[place:place] = [lines[place]] * draw.choice([2, 10, 70])
        else:
            lines[other:other] = lines[place : draw.randrange(place, len(lines)) + 1]
        lines = lines[:MOST_LINES] or [b""]
    return b"\n".join(lines)


def of_pieces(draw: Draw, text: Text) -> bytes:
    """A front of the text, and the end of another case's, mostly of the same sort."""
    other = draw.choice(text.corpus)
    piece = other.get(text.sort) or other["model"]
    if draw.random() < 0.15:
        piece = draw.choice(list(other.values()))
    if draw.random() < 0.5:
        front, end = text.content.split(b"\n"), piece.split(b"\n")
        return b"\n".join(front[: draw.randrange(len(front) + 1)] + end[draw.randrange(len(end) + 1) :])
    return text.content[: draw.randrange(len(text.content) + 1)] + piece[draw.randrange(len(piece) + 1) :]


# ---- depth

NESTS = [
    ("(", ")"), ("-", ""), ("NOT ", ""), ("IF TRUE THEN ", " ELSE 1 ENDIF"), ("IF ", " THEN 1 ELSE 2 ENDIF"),
    ("LET a := ", " IN a ENDLET"), ("LET a := 1 IN ", " ENDLET"), ("Abs(", ")"), ("{", "}"), ("1 + (", ")"),
    ("Min(1, ", ")"), ("FOR e IN {1} WITH a := 0 DO ", " ENDFOR"), ("ITEM(MAP e IN {1} DO ", " ENDMAP, 1)"),
]


def nested(draw: Draw, depth: int, inner: str) -> str:
    """An expression about so deep."""
    before, behind = draw.choice(NESTS)
    way = draw.random()
    if way < 0.15:
        return " + ".join([inner] * depth)
    if way < 0.23:
        return inner + "[t]" * depth
    if way < 0.31:
        return "D.X[" * depth + inner + "]" * depth
    return before * depth + inner + behind * depth


def deep_rule(draw: Draw, depth: int, slot: str) -> str:
    """A rule about so deep."""
    way = draw.random()
    if way < 0.7:
        inner = draw.choice(["1", "t", "TRUE", "a", slot + "[t]"])
        return f'RULE "deep": {slot}[t] := {nested(draw, depth, inner)}; ENDRULE\n'
    before, behind, value = ("IF TRUE THEN ", " ENDIF", "1") if way < 0.85 else ("WITH a := 1 DO ", " ENDWITH", "a")
    return f'RULE "deep": {before * depth}{slot}[t] := {value};{behind * depth} ENDRULE\n'


def deep_code(draw: Draw, depth: int, text: bytes) -> bytes:
    """Code with so many loops in one another, operands, or branches."""
    head, way, loops = b"CODE 1\nRULE\nLOCALS N\n", draw.randrange(3), min(depth, 3_000)
    if way == 0:
        return head + b"num 1\nlist 1\nforeach 0\n" * loops + b"next\n" * loops + b"END\n"
    if way == 1:
        return head + b"num 1\n" * depth + b"add\n" * (depth - draw.choice([0, 1])) + b"store 0\nEND\n"
    return text.replace(b"END\n", b"bool true\nbranch 9\n" * loops + b"END\n", 1)


def deep_key(draw: Draw, depth: int) -> str:
    """A key or a heading of TOML about so deep."""
    dotted = ".".join(["a"] * depth)
    lists, tables = "[" * depth, "{a = " * depth
    return draw.choice(
        [
            f"x = {lists}{']' * depth}", f"x = {tables}1{'}' * depth}", f"{dotted} = 1", f"[{dotted}]",
            f"[[{dotted[:6_000]}a]]\nx = 1", f"history = {lists}1{']' * depth}",
        ]
    )


def of_depth(draw: Draw, text: Text) -> bytes:
    """Something is nested about as deep as a limit, or much deeper."""
    depth = draw.choice(DEPTHS)
    if text.code:
        return deep_code(draw, depth, text.content)
    if text.sort == "policy":
        made = deep_rule(draw, depth, slot_in(draw, text.model)).encode()
        return text.content + made if draw.random() < 0.5 else made
    if text.sort == "model":
        place = draw.choice([0, len(text.content)])
        return text.content[:place] + b"\n" + deep_key(draw, depth).encode() + b"\n" + text.content[place:]
    return text.content + b'"' * depth + b"\n"


# ---- length


def of_length(draw: Draw, text: Text) -> bytes:
    """A word, a number, a space, a comment or a text in quotes is long."""
    length = draw.choice(LENGTHS)
    found = TOKEN.findall(text.content)
    solid = [place for place, token in enumerate(found) if token[:1].isalnum()]
    if not solid:
        return b"x" * length
    place, way = draw.choice(solid), draw.randrange(6)
    if found[place][:1].isdigit():
        zeros = draw.choice([16, 17, 18, 19, length])
        found[place] = draw.choice([b"9" * length, b"0" * length + found[place], b"1" + b"0" * zeros])
    elif way < 3:
        found[place] = (found[place] + b"x" * length)[:length]
    elif way == 3:
        found[place] = b" " * length + found[place]
    elif way == 4:
        found[place] = b"#" + b"c" * length + b"\n" + found[place]
    else:
        found[place] = b'"' + b"y" * length + b'"'
    return b"".join(found)


def of_greatest(draw: Draw, text: Text) -> bytes:
    """The file is as long as a file may be, or a byte longer or shorter: empty lines stand behind it."""
    return text.content + b"\n" * (GREATEST_FILE - len(text.content) + draw.choice([-1, 0, 0, 1]))


def of_nothing(draw: Draw, text: Text) -> bytes:
    """Bytes, tokens or lines by chance."""
    count, way = draw.choice([0, 1, 2, 30, 500, 5_000]), draw.randrange(4)
    if way == 0:
        return draw.randbytes(count)
    if way == 1:
        return " ".join(draw.choice(text.tokens()) for _ in range(count)).encode()
    if way == 2:
        return bytes(draw.choice(b'\x00\x1b "\',.[]{}()=-+#\n\r09azAZ_') for _ in range(count))
    return "\n".join(f"{draw.choice(text.tokens())} {draw.choice(NUMBERS)}" for _ in range(count)).encode()

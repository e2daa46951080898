"""Texts at, right below and right above a limit: of models, rulesets, code, inputs, edits and traces."""

from collections.abc import Callable

from spoiling import NUMBERS, Draw, Q, Text, slot_in

EDGE = [-1, 0, 0, 1]  # what is added to a limit


def around(draw: Draw, limit: int) -> int:
    """A limit, or the number below or above it."""
    return limit + draw.choice(EDGE)


# ---- models


def head(draw: Draw, steps: int) -> str:
    """The beginning of a model of so many timesteps."""
    step = draw.choice(["1h", "24h", "1month"])
    return f'format = {draw.choice([1, 2])}\n[run]\nstart = "2020-01-01T00:00"\nstep = "{step}"\nsteps = {steps}\n'


def thing(name: str, kind: str, more: str = "") -> str:
    """An object of a model."""
    return f'[[object]]\nname = "{name}"\nkind = "{kind}"\n{more}'


def gages(numbers: list[int]) -> str:
    """Gages of these numbers."""
    return "".join(thing(f"G{number}", "gage") for number in numbers)


def data(name: str, slots: int) -> str:
    """A data object of so many slots."""
    rows = ", ".join(f'{{name = "s{number}", unit = "m3"}}' for number in range(slots))
    return thing(name, "data", f"slots = [{rows}]\n")


def long_run(draw: Draw) -> str:
    """4,096 timesteps."""
    return head(draw, around(draw, 4_096)) + thing("G", "gage")


def many_objects(draw: Draw) -> str:
    """500 objects."""
    return head(draw, 2) + gages(list(range(around(draw, 500))))


def many_slots(draw: Draw) -> str:
    """4,000 slots, and with 250 timesteps 1,000,000 values."""
    more = thing("L", "gage") if draw.random() < 0.25 else ""
    return head(draw, draw.choice([1, 250, 251])) + "".join(data(f"D{number}", 8) for number in range(500)) + more


def many_values(draw: Draw) -> str:
    """244 slots and some 4,096 timesteps: 1,000,000 values."""
    return head(draw, draw.choice([4_096, 4_098, 2_049, 2_050])) + gages(list(range(122 + draw.choice([0, 0, 1]))))


def long_lag(draw: Draw) -> str:
    """A lag of 30."""
    lag = around(draw, 30)
    history = [draw.choice([0, Q, Q + 1, -Q]) for _ in range(lag)]
    return head(draw, 5) + thing("R", "reach", f"lag = {lag}\nhistory = {history}\n")


def long_table(draw: Draw) -> str:
    """A table of 2 to 200 rows, or of 1,000."""
    rows = [[row * 10, row * 1_000] for row in range(draw.choice([1, 2, 64, 199, 200, 201, 1_000]))]
    more = f"initial_storage = 500\ntable = {rows}\nevaporation = true\n"
    return head(draw, 3) + thing("R", "reservoir", more)


def long_link(draw: Draw) -> str:
    """A link of 8 slots."""
    count = around(draw, 8)
    slots = ", ".join(f'"G{number}.GageInflow"' for number in range(count))
    return head(draw, 3) + gages(list(range(count))) + f"[[link]]\nslots = [{slots}]\n"


def wide_data(draw: Draw) -> str:
    """A data object of 8 slots."""
    return head(draw, 3) + data("D", around(draw, 8))


def long_river(draw: Draw) -> str:
    """Gages in a row, in any order of the file."""
    count = draw.choice([1, 20, 300])
    order = list(range(count + 1))
    draw.shuffle(order)
    links = "".join(f'[[link]]\nslots = ["G{k}.GageOutflow", "G{k + 1}.GageInflow"]\n' for k in range(count))
    return head(draw, draw.choice([1, 3])) + gages(order) + links


# ---- rulesets


def rule(slot: str, value: str) -> str:
    """A rule that puts a value."""
    return f'RULE "b": {slot}[t] := {value}; ENDRULE\n'


def ones(count: int) -> str:
    """A list of so many ones."""
    return "{" + ", ".join(["1"] * count) + "}"


def nested_loops(draw: Draw, slot: str) -> str:
    """Loops in one another, whose product is some 1,000,000 instructions."""
    items, loops = draw.choice(
        [(100, 2), (101, 2), (10, 5), (31, 3), (46, 3), (47, 3), (9, 5), (12, 5), (370, 2), (380, 2), (4_096, 1)]
    )
    body = "1"
    for loop in range(loops):
        body = f"FOR e{loop} IN l WITH a{loop} := 0 DO a{loop} + {body} ENDFOR"
    return rule(slot, f"LET l := {ones(items)} IN {body} ENDLET")


def doubling_functions(draw: Draw, slot: str) -> str:
    """Functions each of which calls the one before it twice."""
    count = draw.choice([10, 16, 17, 18, 19, 20, 21])
    begin = 'FUNCTION F1(NUMERIC "" x): NUMERIC "" IS x + 1 ENDFUNCTION\n'
    others = (
        f'FUNCTION F{k}(NUMERIC "" x): NUMERIC "" IS F{k - 1}(x) + F{k - 1}(x) ENDFUNCTION\n'
        for k in range(2, count + 1)
    )
    return begin + "".join(others) + rule(slot, f"RoundDown(F{count}(0), 1)")


def many_reads(draw: Draw, slot: str) -> str:
    """Some 20,000 reads."""
    inner = f"IF KNOWN({slot}[t - 1]) THEN u + 1 ELSE u ENDIF"
    loops = f"FOR a IN l WITH s := 0 DO FOR b IN l WITH u := s DO {inner} ENDFOR ENDFOR"
    return rule(slot, f"LET l := {ones(draw.choice([100, 140, 141, 142]))} IN {loops} ENDLET")


def many_puts(draw: Draw, slot: str) -> str:
    """2,000 puts."""
    return f'RULE "b": {f"{slot}[t] := 1; " * around(draw, 2_000)}ENDRULE\n'


def many_words(draw: Draw, slot: str) -> str:
    """Many names of a long list: words of a rule."""
    count = draw.choice([10, 60, 90, 97, 98, 99])
    lets = "".join(f"LET v{number} := l IN " for number in range(count))
    return rule(slot, f"LET l := {ones(4_096)} IN {lets}1{' ENDLET' * count} ENDLET")


def many_rules(draw: Draw, slot: str) -> str:
    """200 rules, or 200 functions."""
    count = around(draw, 200)
    if draw.random() < 0.5:
        return "".join(f'RULE "r{number}": ENDRULE\n' for number in range(count))
    functions = "".join(f"FUNCTION F{number}(): BOOLEAN IS TRUE ENDFUNCTION\n" for number in range(count))
    return functions + rule(slot, "1")


def long_list(draw: Draw, slot: str) -> str:
    """A list of 4,096 items."""
    return rule(slot, f"LENGTH({ones(around(draw, 4_096))})")


def restless_rules(draw: Draw, slot: str) -> str:
    """Rules that change what they look at."""
    own = f"{slot}[t]"
    value = f'IF KNOWN({own}) THEN {own} {draw.choice("+-")} 1 "m3" ELSE 0 "m3" ENDIF'
    return rule(slot, value) * draw.choice([1, 2, 3])


def many_dimensions(draw: Draw, slot: str) -> str:
    """A product of units."""
    return rule(slot, "1" + ' * 1 "m3"' * draw.randrange(3, 10))


def large_numbers(draw: Draw, slot: str) -> str:
    """A number at or past the largest, put some timesteps ahead."""
    ahead = draw.choice([0, 1, 29, 30, 31, 255, 256, Q])
    value = draw.choice([f"{Q}", f"{Q + 1}", f"0 - {Q}", f"{Q} + 1", "1 / 0", f"{Q} * {Q}"])
    return f'RULE "b": {slot}[t + {ahead}] := {value}; ENDRULE\n'


# ---- code


def block(*lines: str, local: str = "-") -> str:
    """Code of one rule."""
    return "\n".join(["CODE 1", "RULE", f"LOCALS {local}", *lines, "END\n"])


def many_locals(draw: Draw, slot: str) -> str:
    """Locals of some 1,000,000 words."""
    return block(local=",".join(["N*4096"] * draw.choice([243, 244, 245, 246])))


def doubling_blocks(draw: Draw, slot: str) -> str:
    """Functions each of which invokes the one before it twice."""
    count = draw.choice([17, 18, 19, 20])
    begin = "CODE 1\nFUNCTION N -\nLOCALS -\nnum 1\nEND\n"
    others = (f"FUNCTION N -\nLOCALS -\ninvoke {k}\ninvoke {k}\nadd\nEND\n" for k in range(1, count))
    return f"{begin}{''.join(others)}RULE\nLOCALS -\ninvoke {count}\nput {slot} 0\nEND\n"


def code_of_puts(draw: Draw, slot: str) -> str:
    """2,000 puts, of 1 or of what is read."""
    value = draw.choice([["num 1"], [f"slot {slot}", "now", "read"]])
    return block(*[*value, f"put {slot} 0"] * around(draw, 2_000))


def many_blocks(draw: Draw, slot: str) -> str:
    """200 rules or functions."""
    one = draw.choice(["RULE\nLOCALS -\nEND\n", "FUNCTION N -\nLOCALS -\nnum 1\nEND\n"])
    return "CODE 1\n" + one * around(draw, 200)


def code_of_loops(draw: Draw, slot: str) -> str:
    """Two loops in one another, over lists that are widened."""
    widths = around(draw, 4_096), draw.choice([1, 120, 243, 244, 4_096])
    loops = [line for k, width in enumerate(widths) for line in ("num 1", "list 1", f"widen {width}", f"foreach {k}")]
    return block(*loops, "next", "next", local="N,N")


def code_of_reads(draw: Draw, slot: str) -> str:
    """Some 20,000 reads, and branches to nowhere."""
    read = [f"slot {slot}", "now", "read", "store 0"]
    odd = [f"slot {slot}", "now", "known", "branch 99999"] * draw.choice([0, 0, 1])
    return block(*odd, *read * draw.choice([3, 9_999, 19_999, 20_000, 20_001]), local="N")


def long_code(draw: Draw, slot: str) -> str:
    """Up to 1,000,000 instructions."""
    return block(*["num 1", "store 0"] * draw.choice([1_000, 124_999, 125_000, 499_999, 500_000]), local="N")


def code_of_large_numbers(draw: Draw, slot: str) -> str:
    """A number at or past the largest, put some timesteps ahead."""
    return block(f"num {draw.choice([Q, -Q, Q + 1, 0])}", f"put {slot} {draw.choice([0, 1, 30, 31, 255, 256])}")


# ---- inputs, edits and traces


def many_edits(draw: Draw, slot: str, first: str = "batch") -> str:
    """64 batches, 10,000 rows, or ranges."""
    header, way = f"{first},slot,step,value\n", draw.randrange(3)
    if way == 0:
        return header + "".join(f"{k},{slot},1,{k}\n" for k in range(1, around(draw, 64) + 1))
    if way == 1:
        rows = range(around(draw, 10_000) - 1)
        return f"{header}1,{slot},1,\n" + "".join(f"{min(64, 2 + k // 200)},{slot},{1 + k % 200},{k}\n" for k in rows)
    rows = range(1, draw.choice([2, 5]))
    return header + "".join(f"{k},{slot},1-{draw.choice([1, 3, 4_096])},{draw.choice(NUMBERS)}\n" for k in rows)


def many_traces(draw: Draw, slot: str) -> str:
    """The same of traces."""
    return many_edits(draw, slot, "trace")


def many_inputs(draw: Draw, slot: str) -> str:
    """Rows for each timestep, many rows of one field, or an odd range."""
    header, way = "slot,step,value\n", draw.randrange(3)
    if way == 0:
        steps = range(1, draw.choice([2, 4_096, 4_098]))
        return header + "".join(f"{slot},{step},{draw.choice([0, 1, Q])}\n" for step in steps)
    if way == 1:
        return header + "a\n" * draw.choice([1, 1_000, 100_000])
    return f"{header}{slot},1-{draw.choice(NUMBERS)},{draw.choice(NUMBERS)}\n"


MODELS: list[Callable[[Draw], str]] = [
    long_run, many_objects, many_slots, many_values, long_lag, long_table, long_link, wide_data, long_river,
]
RULES: list[Callable[[Draw, str], str]] = [
    nested_loops, doubling_functions, many_reads, many_puts, many_words, many_rules, long_list, restless_rules,
    many_dimensions, large_numbers,
]
CODES: list[Callable[[Draw, str], str]] = [
    many_locals, doubling_blocks, code_of_puts, many_blocks, code_of_loops, code_of_reads, long_code,
    code_of_large_numbers,
]


def of_limits(draw: Draw, text: Text) -> bytes:
    """A text of the same sort at, right below or right above a limit."""
    if text.sort == "model":
        return draw.choice(MODELS)(draw).encode()
    slot = slot_in(draw, text.model)
    if text.sort == "policy":
        code = text.code or draw.random() < 0.4
        return draw.choice(CODES if code else RULES)(draw, slot).encode()
    makers: dict[str, Callable[[Draw, str], str]] = {"edits": many_edits, "traces": many_traces}
    return makers.get(text.sort, many_inputs)(draw, slot).encode()

"""Makes files on which the program may be slow: models, inputs, rulesets and code."""

from collections.abc import Callable

from texts import LONG, ROWS, Family, Files, Maker, alike, code, collecting, data, gage, gages, head, kinds, link, listed, named, objects, rule

FAMILIES: list[Family] = []
CHECK = "basin check model policy"
SIMULATE = "basin simulate model inputs"


def family(size: int, words: str, status: int = 0) -> Callable[[Maker], Maker]:
    """Adds a family of the program."""
    return collecting(FAMILIES, size, words, status)


def judged(model: str, policy: str) -> Files:
    """A model and a policy."""
    return {"model": head(2) + model, "policy": policy}


# Rulesets


@family(250, CHECK)
def same_reads(count: int) -> Files:
    """50 rules with so many reads of one slot, whose long name is like all others."""
    slot = f"{LONG}019.{LONG}7"
    return judged(alike(20), rule(f"{slot}[t] := " + listed([f'{slot}[t - 1 "step"]'] * count) + ";") * 50)


@family(99, CHECK)
def reads_of_many(count: int) -> Files:
    """so many objects with like names, and 16 reads of the last one for each."""
    slot = f"{LONG}{count - 1:03}.{LONG}7"
    return judged(alike(count), rule(f"{slot}[t] := " + listed([f'{slot}[t - 1 "step"]'] * 16) + ";") * count)


@family(48, CHECK)
def nested_names(count: int) -> Files:
    """100 rules with so many LETs in one another, each of which reads the outermost name."""
    names = "LET v0 := 1 IN " + "".join(f"LET v{number} := v0 IN " for number in range(1, count))
    return judged(data("D", 2), rule("D.s0[t] := " + names + "v0" + " ENDLET" * count + ";") * 100)


@family(99, CHECK)
def called_functions(count: int) -> Files:
    """so many functions with like names, and 50 calls of the last one for each."""
    functions = "".join(f'FUNCTION {LONG}{number:03}(NUMERIC "" x): NUMERIC "" IS x ENDFUNCTION\n' for number in range(count))
    return judged(data("D", 2), functions + rule("D.s0[t] := " + listed([f"{LONG}{count - 1:03}(1)"] * 50) + ";") * count)


@family(49, CHECK)
def handed_on(count: int) -> Files:
    """so many functions that hand a list of 4,096 numbers on."""
    first = 'FUNCTION f0(LIST 4096 OF NUMERIC "" x): NUMERIC "" IS LENGTH(x) ENDFUNCTION\n'
    later = "".join(f'FUNCTION f{number}(LIST 4096 OF NUMERIC "" x): NUMERIC "" IS f{number - 1}(x) ENDFUNCTION\n' for number in range(1, count))
    return judged(data("D", 2), first + later + rule(f"D.s0[t] := f{count - 1}({{1}});"))


@family(100, "basin compile model policy")
def compiled_puts(count: int) -> Files:
    """200 rules of so many puts."""
    return judged(data("D", 8), rule("D.s7[t] := 1; " * count) * 200)


@family(50, CHECK)
def following_ifs(count: int) -> Files:
    """50 rules with so many IFs one after another."""
    return judged(data("D", 8), rule("IF D.s1[t] > 1 THEN D.s7[t] := 1; ELSE D.s6[t] := 2; ENDIF " * count) * 50)


@family(45, CHECK)
def nested_ifs(count: int) -> Files:
    """200 rules with so many IFs in one another."""
    return judged(data("D", 8), rule("IF D.s1[t] > 1 THEN " * count + "D.s7[t] := 1; " + "ENDIF " * count) * 200)


# Code


def consumed(count: int) -> str:
    """Instructions that put the number of operands."""
    return f"list {count}\nlength\nput D.s0 0\n"


@family(50_000, CHECK)
def branches(count: int) -> Files:
    """code with so many branches to one target."""
    return judged(data("D", 2), code(f"bool true\nbranch {2 * count}\n" * count + "target -\n"))


@family(400, CHECK)
def wide_targets(count: int) -> Files:
    """code with 900 targets above so many operands."""
    return judged(data("D", 2), code("num 1\n" * count + f"target {kinds(count)}\n" * 900 + consumed(count)))


@family(25_000, CHECK)
def loads(count: int) -> Files:
    """code with so many locals, each of which is loaded."""
    return judged(data("D", 2), code(f"load {count - 1}\nstore 0\n" * count, kinds(count)))


@family(2000, CHECK)
def locals_of_functions(count: int) -> Files:
    """code with 200 functions of so many locals, each of which calls the one before it."""
    bodies = ["load 0", *(f"invoke {number}" for number in range(1, 199))]
    return judged(data("D", 2), "CODE 1\n" + "".join(f"FUNCTION N -\nLOCALS {kinds(count)}\n{body}\nEND\n" for body in bodies))


@family(25, CHECK)
def nested_loops(count: int) -> Files:
    """code with 400 times so many loops in one another."""
    return judged(data("D", 2), code(("num 1\nlist 1\nforeach 0\n" * count + "next\n" * count) * 400))


@family(1000, CHECK)
def loops_above_operands(count: int) -> Files:
    """code with so many operands, and ten loops above them for each."""
    return judged(data("D", 2), code("num 1\n" * count + "num 1\nlist 1\nforeach 0\nnext\n" * (10 * count) + consumed(count)))


@family(2000, CHECK)
def branches_above_operands(count: int) -> Files:
    """code with so many operands, and a branch above them for each."""
    return judged(data("D", 2), code("num 1\n" * count + f"bool true\nbranch {3 * count}\n" * count + f"target {kinds(count)}\n" + consumed(count)))


# TOML


def spelt(model: str) -> Files:
    """A text that is TOML, and no model."""
    return {"model": model, "inputs": ROWS}


@family(10_000, SIMULATE, 6)
def tables(count: int) -> Files:
    """so many tables of one table."""
    return spelt("".join(f"[a.b{number}]\n" for number in range(count)))


@family(10_000, SIMULATE, 6)
def deep_tables(count: int) -> Files:
    """so many tables eight levels deep."""
    return spelt("".join(f"[a.a.a.a.a.a.a.b{number}]\n" for number in range(count)))


@family(10_000, SIMULATE, 6)
def dotted_keys(count: int) -> Files:
    """so many dotted keys of one table."""
    return spelt("".join(f"a.b.c.k{number} = 1\n" for number in range(count)))


@family(10_000, SIMULATE, 6)
def falling_keys(count: int) -> Files:
    """so many keys that begin alike, the last one first."""
    return spelt("".join(f"{LONG}{number:07} = 1\n" for number in reversed(range(count))))


@family(10_000, SIMULATE, 6)
def inline_keys(count: int) -> Files:
    """an inline table of so many keys."""
    return spelt("x = {" + ", ".join(f"k{number} = 1" for number in range(count)) + "}\n")


@family(10_000, SIMULATE, 6)
def nested_arrays_of_tables(count: int) -> Files:
    """so many arrays of tables below another one, with a table in each."""
    return spelt("[[a]]\n" + "[[a.b]]\n[a.b.c]\nx = 1\n" * count)


@family(10_000, SIMULATE, 6)
def arrays_of_tables(count: int) -> Files:
    """so many arrays of tables."""
    return spelt("".join(f"[[a{number}]]\n" for number in range(count)))


@family(50_000, SIMULATE, 6)
def long_header(count: int) -> Files:
    """a header of so many parts."""
    return spelt("[" + ".".join(["a"] * count) + "]\n")


@family(1_000_000, SIMULATE, 6)
def escapes(count: int) -> Files:
    """a text of so many escapes."""
    return spelt('x = "' + "\\n" * count + '"\n')


@family(1_000_000, SIMULATE, 6)
def digits(count: int) -> Files:
    """a number of so many digits and underscores."""
    return spelt("x = " + "1_" * (count // 2) + "1\n")


@family(60, "basin migrate model")
def storage_tables(count: int) -> Files:
    """so many reservoirs with tables of 200 rows."""
    rows = ", ".join(f"[{row * 10}, {row * 1000}]" for row in range(200))
    return {"model": head(2) + "".join(named("reservoir", f"R{number}", f"initial_storage = 5\ntable = [{rows}]\n") for number in range(count))}


@family(240, "basin migrate model")
def bounds(count: int) -> Files:
    """so many objects with like names, linked to one another, with bounds for each."""
    names = [f"{LONG}{number:03}" for number in range(count)]
    links = "".join(link(f"{one}.GageOutflow", f"{other}.GageInflow") for one, other in zip(names, names[1:]))
    return {"model": head(2) + "".join(map(gage, names)) + links + "".join(f'[[bound]]\nslot = "{name}.GageInflow"\nmin = 0\nmax = 9\n' for name in names)}


@family(1, "basin migrate model")
def remarks(count: int) -> Files:
    """so many megabytes of remarks before a model."""
    return {"model": ("# " + "x" * 61 + "\n") * (16_384 * count) + head(2) + gage("G")}


# Inputs


@family(160, SIMULATE)
def wide_links(count: int) -> Files:
    """so many data objects, linked eight at a time, over 250 timesteps."""
    groups = [(8 * (number // 8), number % 8) for number in range(count - count % 8)]
    links = "".join(link(*(f"D{first + other}.s{slot}" for other in range(8))) for first, slot in groups)
    rows = "".join(f"D{first}.s{slot},1-250,5\n" for first, slot in groups)
    return {"model": head(250) + objects(count) + links, "inputs": ROWS + rows}


@family(2, SIMULATE, 8)
def doubled_quotes(count: int) -> Files:
    """one field of so many megabytes of doubled quotes."""
    return {"model": head(2) + gage("G"), "inputs": ROWS + '"' + '""' * (count << 19) + '",1,1\n'}


@family(120, SIMULATE)
def rows_of_like_names(count: int) -> Files:
    """so many objects with like names, and rows of all their slots over 20 timesteps."""
    slots = [f"{LONG}{number // 8:03}.{LONG}{number % 8}" for number in reversed(range(8 * count))]
    return {"model": head(20) + alike(count), "inputs": ROWS + "".join(f"{slot},{step},1\n" for slot in slots for step in range(1, 21))}


@family(15, SIMULATE)
def row_a_cell(count: int) -> Files:
    """so many gages, and a row for each of 2,000 timesteps."""
    rows = "".join(f"G{number}.GageInflow,{step},7\n" for step in range(1, 2001) for number in range(count))
    return {"model": head(2000) + gages(count), "inputs": ROWS + rows}

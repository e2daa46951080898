"""Makes files on which a tool may be slow: models, inputs, rulesets, tables."""

from collections.abc import Callable

from texts import LONG, ROWS, Family, Files, Maker, alike, cells, chain, code, collecting, data, gage, gages, head, kinds, link, listed, named, objects, rule, table

FAMILIES: list[Family] = []


def family(size: int, words: str, status: int = 0) -> Callable[[Maker], Maker]:
    """Adds a family of a tool."""
    return collecting(FAMILIES, size, words, status)


# Models and inputs


@family(50, "doctor model inputs", 1)
def unknown_slots(count: int) -> Files:
    """so many rows with unknown slots, and as many objects with like names."""
    return {"model": head(2) + alike(count), "inputs": ROWS + "".join(f"{LONG}{number:03}.{LONG}z{number},1,1\n" for number in range(count))}


@family(50, "doctor model inputs", 1)
def unknown_objects(count: int) -> Files:
    """so many rows with unknown objects, and as many objects with like names."""
    return {"model": head(2) + alike(count), "inputs": ROWS + "".join(f"{LONG}y{number:03}.{LONG}1,1,1\n" for number in range(count))}


@family(16, "doctor model inputs", 1)
def no_dots(count: int) -> Files:
    """so many rows of slots without a dot, and as many objects with like names."""
    return {"model": head(2) + alike(count), "inputs": ROWS + "".join(f"{LONG}y{number:03},1,1\n" for number in range(count))}


@family(50, "doctor model", 1)
def unknown_links(count: int) -> Files:
    """so many links of unknown slots, and as many objects with like names."""
    links = "".join(link(f"{LONG}001.{LONG}q{number}", f"{LONG}002.{LONG}r{number}") for number in range(count))
    return {"model": head(2) + alike(count) + links}


@family(2000, "doctor model", 1)
def one_name(count: int) -> Files:
    """so many objects of one name."""
    return {"model": head(2) + gage("G") * count}


@family(2000, "doctor model", 1)
def many_names(count: int) -> Files:
    """so many objects of different names."""
    return {"model": head(2) + gages(count)}


@family(2000, "doctor model", 1)
def many_slots(count: int) -> Files:
    """a data object of so many slots."""
    return {"model": head(2) + data("D", count)}


@family(1500, "doctor model", 1)
def one_link(count: int) -> Files:
    """so many links of the same slots."""
    return {"model": head(2) + gages(2) + link("G0.GageOutflow", "G1.GageInflow") * count}


@family(5000, "doctor model", 1)
def wide_link(count: int) -> Files:
    """a link of so many unknown slots."""
    return {"model": head(2) + gage("G") + link(*(f"G.a{number}" for number in range(count)))}


@family(1000, "doctor model", 1)
def unknown_keys(count: int) -> Files:
    """so many bounds with unknown keys."""
    return {"model": head(2) + gage("G") + "".join(f'[[bound]]\nslot = "G.GageInflow"\nmi{number} = 0\n' for number in range(count))}


@family(8000, "doctor model", 1)
def dotted_key(count: int) -> Files:
    """a key of so many parts."""
    return {"model": ".".join(["a"] * count) + " = 1\n"}


@family(8000, "doctor model", 1)
def dotted_header(count: int) -> Files:
    """a header of so many parts."""
    return {"model": "[" + ".".join(["a"] * count) + "]\n"}


@family(50_000, "doctor model", 1)
def deep_array(count: int) -> Files:
    """so many arrays in one another."""
    return {"model": "x = " + "[" * count + "]" * count + "\n"}


@family(50_000, "doctor model", 1)
def deep_tables(count: int) -> Files:
    """so many inline tables in one another."""
    return {"model": "x = " + "{a=" * count + "1" + "}" * count + "\n"}


@family(4000, "doctor model", 1)
def tables_of_one(count: int) -> Files:
    """so many tables of one table."""
    return {"model": "".join(f"[a.b{number}]\n" for number in range(count))}


@family(1200, "doctor model", 1)
def arrays_of_tables(count: int) -> Files:
    """so many arrays of tables below another one, with a table in each."""
    return {"model": "[[a]]\n" + "[[a.b]]\n[a.b.c]\nx = 1\n" * count}


@family(60_000, "doctor model", 1)
def long_number(count: int) -> Files:
    """a number of so many digits."""
    return {"model": head(2).replace("steps = 2", "steps = " + "9" * count)}


@family(60_000, "doctor model", 1)
def long_hexadecimal(count: int) -> Files:
    """a hexadecimal number of so many digits."""
    return {"model": head(2).replace("steps = 2", "steps = 0x" + "f" * count)}


@family(8000, "doctor model", 1)
def wrong_dates(count: int) -> Files:
    """so many dates that are none."""
    return {"model": "x = [" + "2020-02-30, " * count + "]\n"}


@family(8000, "doctor model", 1)
def many_dates(count: int) -> Files:
    """so many dates."""
    return {"model": "x = [" + "2020-02-28, " * count + "]\n"}


@family(150_000, "doctor model", 1)
def blank_lines(count: int) -> Files:
    """so many blanks, remarks and line ends before a text that is no TOML."""
    return {"model": "#\n \n" * (count // 4) + "x = \n"}


@family(6000, "doctor model", 1)
def open_table(count: int) -> Files:
    """an inline table of so many lines that does not end."""
    return {"model": "x = {\n" + "a=1,\n" * count}


@family(20, "doctor model inputs", 1)
def same_rows(count: int) -> Files:
    """so many rows of one slot over 1,000 timesteps."""
    return {"model": head(1000) + gage("G"), "inputs": ROWS + "G.GageInflow,1-1000,7\n" * count}


@family(90, "doctor model inputs", 1)
def unknown_chain(count: int) -> Files:
    """so many gages in a chain over 20 timesteps, without inputs."""
    return {"model": head(20) + chain(count), "inputs": ROWS}


@family(250, "doctor model inputs", 1)
def unknown_storages(count: int) -> Files:
    """20 reservoirs over so many timesteps, without inputs."""
    return {"model": head(count) + "".join(named("reservoir", f"R{number}", "initial_storage = 5\n") for number in range(20)), "inputs": ROWS}


@family(120, "slots model inputs")
def listed_slots(count: int) -> Files:
    """so many objects with like names."""
    return {"model": head(20) + alike(count), "inputs": ROWS + f"{LONG}000.{LONG}1,1-20,1\n"}


@family(100, "map model")
def mapped_chain(count: int) -> Files:
    """so many gages in a chain."""
    return {"model": head(2) + chain(count)}


# Rulesets


def doctored(size: int, status: int = 0, status_of_rules: int = 0) -> Callable[[Maker], Maker]:
    """Adds a family of the doctor, and one of the tool rules."""

    def add(files: Maker) -> Maker:
        family(size, "doctor model --policy policy", status)(files)
        return family(size, "rules model policy", status_of_rules)(files)

    return add


def judged(policy: str, model: str = "") -> Files:
    """A policy, and the model of a data object."""
    return {"model": head(2) + (model or data("D", 8)), "policy": policy}


@doctored(10, 1)
def puts(count: int) -> Files:
    """50 rules of so many puts."""
    lines = ("".join(f"D.s{(number + line) % 8}[t] := D.s{number % 7}[t] + {number}; " for number in range(count)) for line in range(50))
    return judged("".join(map(rule, lines)))


@doctored(8)
def many_looks(count: int) -> Files:
    """so many rules that look at 100 cells."""
    looks = listed(f"{cell}[t]" for cell in cells(100))
    return judged("".join(rule(f"E.s{number % 8}[t] := {looks};", f"r{number}") for number in range(count)), objects(13) + data("E", 8))


@doctored(20)
def nested_ifs(count: int) -> Files:
    """20 rules with so many IFs in one another."""
    conditions = "".join(f"IF D.s1[t] > {number} THEN " for number in range(count))
    return judged(rule(conditions + "D.s7[t] := 1; " + "ENDIF " * count) * 20)


@doctored(99)
def calls(count: int) -> Files:
    """so many functions, each of which calls the one before it."""
    first = 'FUNCTION f0(NUMERIC "" x): NUMERIC "" IS x + 1 ENDFUNCTION\n'
    later = "".join(f'FUNCTION f{number}(NUMERIC "" x): NUMERIC "" IS f{number - 1}(x) + 1 ENDFUNCTION\n' for number in range(1, count))
    return judged(first + later + rule(f"D.s0[t] := f{count - 1}(1);"))


@doctored(45)
def long_sum(count: int) -> Files:
    """20 rules with a sum of so many terms."""
    return judged(rule("D.s0[t] := " + " + ".join(["D.s1[t]"] * count) + ";") * 20)


@doctored(8000, 1, 2)
def brackets(count: int) -> Files:
    """so many brackets in one another."""
    return judged(rule("D.s0[t] := " + "(" * count + "1" + ")" * count + ";"))


@doctored(200)
def following_ifs(count: int) -> Files:
    """a rule of so many IFs one after another."""
    return judged(rule("IF D.s1[t] > 1 THEN D.s7[t] := 1; ELSE D.s6[t] := 2; ENDIF " * count))


@doctored(40)
def nested_names(count: int) -> Files:
    """10 rules with so many LETs in one another, each the sum of two others."""
    names = "LET v0 := D.s1[t] IN LET v1 := D.s2[t] IN " + "".join(f"LET v{number} := v{number - 1} + v{number - 2} IN " for number in range(2, count))
    return judged(rule(f"D.s0[t] := {names}v{count - 1}" + " ENDLET" * count + ";") * 10)


@doctored(900)
def code_of_puts(count: int) -> Files:
    """code of so many puts."""
    return judged(code("num 1\nput D.s0 0\n" * count))


@doctored(100)
def code_of_targets(count: int) -> Files:
    """code with 50 targets above so many operands."""
    return judged(code("num 1\n" * count + f"target {kinds(count)}\n" * 50 + f"list {count}\nlength\nput D.s0 0\n"))


@doctored(20_000, 1, 2)
def unknown_words(count: int) -> Files:
    """so many words after a rule."""
    return judged(rule("D.s0[t] := 1;") + "x " * count)


@doctored(50, 1, 2)
def unknown_puts(count: int) -> Files:
    """so many rules that put to unknown slots, and as many objects with like names."""
    return judged("".join(rule(f"{LONG}001.{LONG}q{number}[t] := 1;") for number in range(count)), alike(count))


@doctored(200, 1, 2)
def twice_defined(count: int) -> Files:
    """so many functions, each of which is defined twice."""
    return judged("".join(f'FUNCTION f{number // 2}(NUMERIC "" x): NUMERIC "" IS y{number} ENDFUNCTION\n' for number in range(count)))


# Runs


def running(count: int, puts: Callable[[int], str]) -> Files:
    """40 rules, over so many timesteps."""
    rules = (rule(puts(number), f"a{number}") for number in range(40))
    return {"model": head(count) + data("D", 8) + data("E", 8), "policy": "".join(rules), "inputs": ROWS}


def firing(count: int) -> Files:
    """40 rules that fire, over so many timesteps."""
    return running(count, lambda number: f"D.s{number % 8}[t] := {number};")


@family(50, "doctor model inputs --policy policy", 1)
def doctor_of_unknown(count: int) -> Files:
    """40 rules that end unknown, over so many timesteps."""
    return running(count, lambda number: f"D.s{number % 8}[t] := E.s{number % 7}[t];")


@family(50, "doctor model inputs --policy policy", 1)
def doctor_of_firing(count: int) -> Files:
    """40 rules that fire, over so many timesteps."""
    return firing(count)


@family(150, "why model policy inputs D.s0 1")
def why_of_firing(count: int) -> Files:
    """40 rules that fire, over so many timesteps."""
    return firing(count)


@family(60, "effect model policy inputs")
def effect_of_firing(count: int) -> Files:
    """40 rules that fire, over so many timesteps."""
    return firing(count)


@family(40, "report model policy inputs -o page.html")
def report_of_firing(count: int) -> Files:
    """40 rules that fire, over so many timesteps."""
    return firing(count)


@family(30, "report model policy inputs -o page.html")
def report_of_chain(count: int) -> Files:
    """so many gages in a chain, over 20 timesteps."""
    return {"model": head(20) + chain(count), "policy": "", "inputs": ROWS + "G0.GageInflow,1-20,7\n"}


# Tables


READERS = ("table table --model model", "compare table other", "plot table --text", "inputs table")


def tabled(size: int, *statuses: int) -> Callable[[Maker], Maker]:
    """Adds a family of each tool that reads a table, with its status."""

    def add(files: Maker) -> Maker:
        for words, status in zip(READERS, statuses):
            family(size, words, status)(files)
        return files

    return add


@tabled(50, 0, 1, 0, 0)
def many_rows(count: int) -> Files:
    """a table of 96 columns and so many rows."""
    text = table(96, count)
    return {"table": text, "other": text.replace(",5,", ",6,"), "model": head(count) + objects(12)}


@tabled(300, 0, 1, 0, 0)
def many_sections(count: int) -> Files:
    """so many sections of 8 columns and 2 rows."""
    text = "".join(table(8, 2, batch=batch) for batch in range(count))
    return {"table": text, "other": text.replace(",5,", ",6,"), "model": head(2) + objects(1)}


@tabled(1000, 0, 1, 0, 0)
def many_columns(count: int) -> Files:
    """so many columns and 2 rows."""
    text = table(count, 2)
    return {"table": text, "other": text.replace(",5,", ",6,"), "model": head(2) + objects(count // 8)}


@tabled(2000, 2, 2, 2, 2)
def long_cells(count: int) -> Files:
    """a cell, and the timestep of a fault, of so many digits."""
    text = table(8, 2, "9" * count, ending=f"fault overbooked step {'9' * count}")
    return {"table": text, "other": text, "model": head(2) + objects(1)}


@family(150, "plot table -o picture.svg")
def drawn_sections(count: int) -> Files:
    """so many sections of 8 columns and 2 rows, drawn."""
    return {"table": "".join(table(8, 2, batch=batch) for batch in range(count))}


@family(10_000, "inputs table", 2)
def digits_and_letter(count: int) -> Files:
    """a cell of so many digits and a letter."""
    return {"table": "step;A.B\n1;" + "1" * count + "x\n"}


@family(10_000, "inputs table", 2)
def blanks(count: int) -> Files:
    """a heading of so many blanks."""
    return {"table": "step,A" + " " * count + "(\n1,2\n"}


@family(1000, "inputs table --model model", 2)
def midnights(count: int) -> Files:
    """a date with so many times 24:00."""
    return {"model": head(5) + data("A", 2), "table": "date,A.s0\n2020-01-01" + " 24:00" * count + ",2\n"}


@family(100_000, "inputs table --model model", 2)
def long_number_in_cell(count: int) -> Files:
    """a cell of so many digits."""
    return {"model": head(5) + data("A", 2), "table": "step,A.s0\n1," + "1" * count + "\n"}


@family(50, "inputs table --model model", 2)
def unknown_headings(count: int) -> Files:
    """so many headings that are no slots, and as many objects with like names."""
    headings = ",".join(f"{LONG}001.{LONG}q{number}" for number in range(count))
    return {"model": head(2) + alike(count), "table": f"step,{headings}\n1" + ",1" * count + "\n"}


@family(3000, "inputs table")
def headings(count: int) -> Files:
    """so many headings."""
    return {"table": "step," + ",".join(f"A{number}.B" for number in range(count)) + "\n1" + ",1" * count + "\n"}


@family(2000, "inputs table", 2)
def one_heading(count: int) -> Files:
    """so many headings of one slot."""
    return {"table": "step," + ",".join(["A.B"] * count) + "\n1" + ",1" * count + "\n"}


@family(200, "inputs table --only *a*a*a*a*a*a*b.*", 2)
def stars(count: int) -> Files:
    """a heading of so many letters, and --only with stars."""
    return {"table": "step," + "a" * count + ".B\n1,1\n"}


@family(5_000_000, "inputs table", 2)
def long_range(count: int) -> Files:
    """a range of so many timesteps."""
    return {"table": f"step,A.B\n1-{count},1\n"}

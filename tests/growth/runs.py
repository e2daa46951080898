"""Makes files on which a run may be slow: chains, rules that put and look, edits, traces."""

from collections.abc import Callable

from texts import ROWS, Family, Files, Maker, cells, chain, collecting, data, gages, head, link, listed, named, objects, rule

FAMILIES: list[Family] = []
RUN = "basin run model policy inputs"
MANY = "rule_limit = 100\n"


def family(size: int, words: str, status: int = 0) -> Callable[[Maker], Maker]:
    """Adds a family of the program."""
    return collecting(FAMILIES, size, words, status)


def in_chain(count: int, steps: int) -> Files:
    """Gages in a chain, the last one first, with an inflow into the first one."""
    return {"model": head(steps) + chain(count, True), "policy": "", "inputs": ROWS + f"G0.GageInflow,1-{steps},7\n"}


def ruled(model: str, *rules: str) -> Files:
    """A model and its rules, without inputs."""
    return {"model": model, "policy": "".join(rules), "inputs": ROWS}


# Objects


@family(125, "basin simulate model inputs")
def chain_of_gages(count: int) -> Files:
    """so many gages in a chain, the last one first, over 300 timesteps."""
    return in_chain(count, 300)


@family(125, "basin simulate model inputs --order newest")
def chain_newest_first(count: int) -> Files:
    """so many gages in a chain, the last one first, over 300 timesteps, the newest one first."""
    return in_chain(count, 300)


@family(128, "basin simulate model inputs --order newest")
def tree(count: int) -> Files:
    """a tree of so many confluences over 200 timesteps, the newest one first."""
    model = "".join(named("confluence", f"C{number}") for number in range(1, count))
    for number in range(1, count // 2):
        model += link(f"C{2 * number}.Outflow", f"C{number}.Inflow1") + link(f"C{2 * number + 1}.Outflow", f"C{number}.Inflow2")
    rows = (f"C{number}.Inflow{side},1-200,1\n" for number in range(count // 2, count) for side in (1, 2))
    return {"model": head(200) + model, "inputs": ROWS + "".join(rows)}


@family(125, "basin why model policy inputs G0.GageOutflow 300")
def why_in_a_chain(count: int) -> Files:
    """so many gages in a chain over 300 timesteps."""
    return in_chain(count, 300)


@family(60, "basin balance model policy inputs")
def balanced(count: int) -> Files:
    """so many reservoirs over 300 timesteps."""
    model = "".join(named("reservoir", f"R{number}", "initial_storage = 5\n") for number in range(count))
    rows = "".join(f"R{number}.Inflow,1-300,5\nR{number}.Outflow,1-300,5\n" for number in range(count))
    return {"model": head(300) + model, "policy": "", "inputs": ROWS + rows}


@family(100, "basin balance model policy inputs")
def power_tables(count: int) -> Files:
    """100 power reservoirs with tables of so many rows, over 10 timesteps."""
    rows = ", ".join(f"[{row * 1000}, {row * 10000}]" for row in range(count))
    more = f"initial_storage = 100000\nmax_release = 1000\npower = 2500\ntable = [{rows}]\n"
    model = "".join(named("power_reservoir", f"R{number}", more) for number in range(100))
    given = "".join(f"R{number}.Inflow,1-10,500\nR{number}.EnergyRequest,1-10,0\n" for number in range(100))
    return {"model": head(10) + model, "policy": "", "inputs": ROWS + given}


# Rules


@family(500, "basin why model policy inputs D.s0 1")
def why_put_again(count: int) -> Files:
    """a cell that 100 rules put again, over so many timesteps."""
    rules = (rule(f"D.s0[t] := {number % 7};", f"a{number}") for number in range(100))
    return ruled(head(count, MANY) + data("D", 8), *rules)


def looking(rules: int, reads: int) -> Files:
    """Rules that look at cells, while another rule fires 90 times in each of 4 timesteps."""
    first = rule("D0.s0[t] := Min(IF KNOWN(D0.s0[t]) THEN D0.s0[t] ELSE 0 ENDIF + 1, 90);", "count")
    known = cells(reads + 8)[8:]
    later = (rule(f"D0.s1[t] := {listed(f'{cell}[t]' for cell in known)};", f"r{number}") for number in range(rules))
    files = ruled(head(4, MANY) + objects(reads // 8 + 2), first, *later)
    return files | {"inputs": ROWS + "".join(f"{cell},1-4,1\n" for cell in known)}


@family(50, RUN)
def rules_that_look(count: int) -> Files:
    """so many rules that look at 100 cells, while another rule fires 90 times."""
    return looking(count, 100)


@family(200, RUN)
def cells_looked_at(count: int) -> Files:
    """20 rules that look at so many cells, while another rule fires 90 times."""
    return looking(20, count)


@family(90, RUN)
def waiting_rules(count: int) -> Files:
    """so many rules, each of which waits for the next one, over 200 timesteps."""
    model = head(200, 'agenda = "123"\n' + MANY) + "".join(data(f"D{number}", 1) for number in range(count + 1))
    rules = "".join(rule(f"D{number}.s0[t] := D{number + 1}.s0[t] + 1;") for number in range(count))
    return {"model": model, "policy": rules, "inputs": ROWS + f"D{count}.s0,1-200,1\n"}


@family(45, RUN)
def rules_in_turn(count: int) -> Files:
    """so many rules that look at one cell, which each of them puts in turn."""
    rules = (rule(f"IF NOT KNOWN(D.s0[t]) THEN D.s0[t] := 1; ELSE D.s0[t] := {count - number}; ENDIF") for number in range(count))
    return ruled(head(100, MANY) + data("D", 8), *rules)


def to_one_cell(count: int) -> Files:
    """20 rules of so many puts to one cell."""
    return ruled(head(10) + data("D", 8), rule("D.s7[t] := 1; " * count) * 20)


def to_many_cells(count: int) -> Files:
    """20 rules of so many puts to as many cells."""
    rules = (rule("".join(f"{cell}[t] := {number}; " for cell in cells(count))) for number in range(20))
    return ruled(head(2) + objects(count // 8 + 1), *rules)


@family(500, f"{RUN} --trace")
def traced_puts_to_one(count: int) -> Files:
    """20 rules of so many puts to one cell, traced."""
    return to_one_cell(count)


@family(500, f"{RUN} --trace --asked")
def asked_puts_to_one(count: int) -> Files:
    """20 rules of so many puts to one cell, traced with what was asked."""
    return to_one_cell(count)


@family(1000, RUN)
def puts_to_many(count: int) -> Files:
    """20 rules of so many puts to as many cells."""
    return to_many_cells(count)


@family(1000, f"{RUN} --trace")
def traced_puts_to_many(count: int) -> Files:
    """20 rules of so many puts to as many cells, traced."""
    return to_many_cells(count)


@family(1000, f"{RUN} --trace --asked")
def asked_puts_to_many(count: int) -> Files:
    """20 rules of so many puts to as many cells, traced with what was asked."""
    return to_many_cells(count)


def putting(count: int) -> Files:
    """100 rules that put, over so many timesteps."""
    return ruled(head(count) + data("D", 8), *(rule(f"D.s{number % 8}[t] := {number};") for number in range(100)))


@family(300, f"{RUN} --trace")
def traced_timesteps(count: int) -> Files:
    """100 rules that put, over so many timesteps, traced."""
    return putting(count)


@family(300, f"{RUN} --trace --asked")
def asked_timesteps(count: int) -> Files:
    """100 rules that put, over so many timesteps, traced with what was asked."""
    return putting(count)


@family(8, RUN)
def puts_ahead(count: int) -> Files:
    """80 rules that put so many timesteps ahead, over 600 timesteps."""
    puts = ("".join(f"D{number % 10}.s{number // 10}[t + {ahead}] := {number}; " for ahead in range(count)) for number in range(80))
    return ruled(head(600, version=2) + objects(10), *map(rule, puts))


@family(2000, RUN)
def looks_back(count: int) -> Files:
    """20 rules that add to the timestep before, over so many timesteps."""
    before = 'D.s0[t - 1 "step"]'
    return ruled(head(count) + data("D", 8), rule(f"D.s0[t] := IF KNOWN({before}) THEN {before} + 1 ELSE 1 ENDIF;") * 20)


@family(2000, RUN)
def list_of_ifs(count: int) -> Files:
    """a list of so many IFs."""
    return ruled(head(2) + data("D", 8), rule("D.s0[t] := " + listed(["IF TRUE THEN 1 ELSE 0 ENDIF"] * count) + ";"))


@family(400, RUN)
def ifs_in_nested_lists(count: int) -> Files:
    """40 lists in one another of so many numbers each, and as many IFs in the innermost one."""
    inner = listed(["IF TRUE THEN 1 ELSE 0 ENDIF"] * count)
    for _ in range(40):
        inner = listed(["1"] * count + [inner])
    return ruled(head(2) + data("D", 8), rule(f"D.s0[t] := {inner};"))


@family(1000, "basin compile model policy")
def compiled_ifs(count: int) -> Files:
    """a list of so many IFs."""
    return list_of_ifs(count)


# Edits and traces


def edited(batches: int, rows: int, steps: int, word: str = "batch") -> Files:
    """Batches of edits of the first inflow of a chain of 50 gages."""
    edits = "".join(f"{batch},G0.GageInflow,{step},{batch}\n" for batch in range(1, batches + 1) for step in range(1, rows + 1))
    inputs = ROWS + f"G0.GageInflow,1-{steps},7\n"
    return {"model": head(steps) + chain(50), "policy": "", "inputs": inputs, "edits": f"{word},{ROWS}{edits}"}


@family(16, f"{RUN} --edits edits --reuse")
def batches(count: int) -> Files:
    """so many batches of edits of one cell."""
    return edited(count, 1, 500)


@family(250, f"{RUN} --edits edits --reuse")
def edited_timesteps(count: int) -> Files:
    """30 batches of edits of one cell, over so many timesteps."""
    return edited(30, 1, count)


@family(40, f"{RUN} --edits edits --reuse")
def rows_of_batches(count: int) -> Files:
    """30 batches of so many rows over the same cells."""
    return edited(30, count, 150)


@family(160, f"{RUN} --edits edits --reuse")
def given_back(count: int) -> Files:
    """30 batches that change and give back so many cells in turn, before timesteps that look at a storage."""
    model = head(400) + named("reservoir", "R", "initial_storage = 100000\n")
    edits = "".join(f"{batch},R.Inflow,{step},{7 + batch % 2}\n" for batch in range(1, 31) for step in range(1, count + 1))
    inputs = ROWS + "R.Inflow,1-400,7\n"
    return {"model": model, "policy": rule("R.Outflow[t] := R.Inflow[t];"), "inputs": inputs, "edits": f"batch,{ROWS}{edits}"}


@family(32, f"{RUN} --edits edits")
def edits_of_linked_slots(count: int) -> Files:
    """so many batches of 100 rows over 100 timesteps, of slots that are linked eight at a time."""
    links = "".join(link(*(f"D{8 * group + other}.s{slot}" for other in range(8))) for group in range(13) for slot in range(8))
    slots = [f"D{8 * (number // 8)}.s{number % 8}" for number in range(100)]
    edits = "".join(f"{batch},{slot},1-100,{batch}\n" for batch in range(1, count + 1) for slot in slots)
    return {"model": head(100) + objects(104) + links, "policy": "", "inputs": ROWS, "edits": f"batch,{ROWS}{edits}"}


@family(32, "basin mrm model policy inputs edits")
def traces(count: int) -> Files:
    """so many traces over a chain of gages."""
    return edited(count, 1, 300, "trace")


@family(40, "basin mrm model policy inputs edits")
def rows_of_traces(count: int) -> Files:
    """60 traces of so many rows over 100 timesteps."""
    edits = "".join(f"{trace},{cell},1-100,{trace}\n" for trace in range(1, 61) for cell in cells(count))
    return {"model": head(100) + objects(count // 8 + 1), "policy": "", "inputs": ROWS, "edits": f"trace,{ROWS}{edits}"}

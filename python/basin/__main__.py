"""`python3 -m basin`: parts and merges of ensembles whose plans are there, for Slurm and for terminals."""

from __future__ import annotations

import argparse
import sys

from . import ensemble
from .errors import Error, some_of
from .parts import Done, failure, outcomes
from .plans import Plan
from .process import ended_in_order

INTERRUPTED = 130
EXAMPLE = "example: python3 -m basin run FOLDER --workers 4 && python3 -m basin merge FOLDER 5 50 95"


def task(words: argparse.Namespace) -> None:
    """Runs the parts of a task that are missing, of which none stops another."""
    if not 1 <= words.task <= words.tasks:
        raise ValueError(f"of {words.tasks} tasks none is the one numbered {words.task}")
    missing = set(words.plan.missing())
    mine = [number for number in range(words.task - 1, words.plan.parts, words.tasks) if number in missing]
    failed = []
    for number, found in outcomes(words.plan.folder, mine):
        print(found if isinstance(found, Done) else f"part {number} failed: {found}", flush=True)
        if not isinstance(found, Done):
            failed.append((number, found))
    if failed:
        raise failure(failed, len(mine))


def execute(words: argparse.Namespace) -> None:
    """Runs all parts that are missing."""
    ensemble.execute(words.plan, workers=words.workers)


def merge(words: argparse.Namespace) -> None:
    """Writes the statistics, and says how many traces they leave out."""
    print(ensemble.merge(words.plan, words.percentiles or (10, 50, 90)))
    faults, refused = list(ensemble.faults(words.plan).index), len(ensemble.refusals(words.plan))
    named = f" ({some_of(faults)})" if faults else ""
    print(f"{words.plan.traces} traces, {len(faults)} ended in a fault{named}, {refused} are refused")


def plan_of(folder: str) -> Plan:
    """Returns the plan of a folder."""
    try:
        return Plan.read(folder)
    except Error as error:
        raise argparse.ArgumentTypeError(str(error)) from None


def words_of() -> argparse.Namespace:
    """Returns the arguments."""
    words = argparse.ArgumentParser(prog="python3 -m basin", description=__doc__, epilog=EXAMPLE)
    jobs = words.add_subparsers(required=True, metavar="JOB")
    of_task = jobs.add_parser("task", help="one task of Slurm's array")
    of_run = jobs.add_parser("run", help="all parts that are missing")
    of_merge = jobs.add_parser("merge", help="the statistics of all parts")
    for job, does in ((of_task, task), (of_run, execute), (of_merge, merge)):
        job.add_argument("plan", type=plan_of, metavar="FOLDER")
        job.set_defaults(does=does)
    of_task.add_argument("task", type=int, metavar="I", help="which task it is, from 1 on")
    of_task.add_argument("tasks", type=int, metavar="N", help="how many there are")
    of_run.add_argument(
        "--workers", type=int, metavar="N", help="the number of worker processes; 0 runs in this process alone"
    )
    of_merge.add_argument("percentiles", nargs="*", metavar="PERCENT")
    return words.parse_args()


def main() -> int:
    """Does what the words say; what cannot be done is one line, with status 2."""
    words = words_of()
    try:
        with ended_in_order():  # when `timeout` or Slurm asks for it
            words.does(words)
    except (Error, ValueError, OSError) as error:
        print(f"basin: {error}", file=sys.stderr)
        return 2
    except KeyboardInterrupt:
        return INTERRUPTED
    return 0


if __name__ == "__main__":
    sys.exit(main())

"""Slurm's scripts for an ensemble: an array of tasks, and the merge after it."""

from __future__ import annotations

import re
import shlex
import site
import sys
from pathlib import Path

from .plans import Plan

MOST_TASKS = 1_000  # many clusters allow no larger array
PLAIN_PATH = re.compile(r"[A-Za-z0-9_./+=@,-]+")
PLACE = Path(__file__).resolve().parent.parent  # the folder that has the package
ARRAY = """#!/bin/bash
#SBATCH --job-name=basin
#SBATCH --array=1-{tasks}
#SBATCH --ntasks=1
#SBATCH --cpus-per-task=1
#SBATCH --mem={memory}M
#SBATCH --output={folder}/slurm-%A-%a.txt
{path}exec {python} -m basin task {folder} "$SLURM_ARRAY_TASK_ID" {tasks}
"""
MERGE = """#!/bin/bash
# sbatch --dependency=afterany:$(sbatch --parsable {array}) {merge}
#SBATCH --job-name=basin-merge
#SBATCH --output={folder}/slurm-merge-%j.txt
{path}exec {python} -m basin merge {folder}
"""


def slurm(plan: Plan, *, tasks: int | None = None, memory: int = 2_000) -> tuple[Path, Path]:
    """Writes an array of tasks, each of which takes each so-manieth part, and the merge; their paths.

    `memory` is that of a task in MB. The second line of the merge says how both are handed in.
    """
    folder = str(plan.folder)
    if not PLAIN_PATH.fullmatch(folder):
        raise ValueError("Slurm's scripts need a folder whose path has only letters, digits and _./+=@,-")
    count = max(1, min(plan.parts, tasks or MOST_TASKS, MOST_TASKS))
    array, last = plan.folder / "array.sh", plan.folder / "merge.sh"
    words = {"folder": folder, "python": shlex.quote(sys.executable), "path": found_by()}
    array.write_text(ARRAY.format(tasks=count, memory=int(memory), **words))
    last.write_text(MERGE.format(array=array, merge=last, **words))
    return array, last


def found_by() -> str:
    """Returns a line that sets PYTHONPATH, if the Python of a task would not find this package: a task has neither the
    `sys.path` of the process that planned it nor its working folder, which a relative `PYTHONPATH` needs."""
    if str(PLACE) in (*site.getsitepackages(), site.getusersitepackages()):
        return ""
    return f"export PYTHONPATH={shlex.quote(str(PLACE))}${{PYTHONPATH:+:$PYTHONPATH}}\n"

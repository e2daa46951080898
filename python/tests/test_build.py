"""The builder: the same bytes each time, and a wheel that runs apart from the checkout. And what measures."""

from __future__ import annotations

import os
import subprocess
import sys
import tarfile
import zipfile
from pathlib import Path

import pytest

import basin

from small import TOP, VALLEY

pytestmark = pytest.mark.slow


def test_builds_are_alike_and_the_wheel_runs(tmp_path: Path) -> None:
    for folder, mask in (("a", "022"), ("b", "077")):
        subprocess.run(
            ["sh", "-c", f"umask {mask}; {TOP}/python/build {tmp_path / folder}"],
            check=True,
            capture_output=True,
        )
    names = sorted(path.name for path in (tmp_path / "a").iterdir())
    version = (TOP / "VERSION").read_text().strip()
    assert names == [f"basin-{version}-py3-none-any.whl", f"basin-{version}.tar.gz"]
    for name in names:
        assert (tmp_path / "a" / name).read_bytes() == (tmp_path / "b" / name).read_bytes()
    with tarfile.open(tmp_path / "a" / names[1]) as source:
        for wanted in ("/basin_rules/policy.py", f"basin-{version}/VERSION"):
            assert any(name.endswith(wanted) for name in source.getnames())
    with zipfile.ZipFile(tmp_path / "a" / names[0]) as wheel:
        wheel.extractall(tmp_path / "site")
    assert (tmp_path / "site/basin/py.typed").exists()
    code = f"import basin; print(basin.__file__, len(basin.run(*{[str(path) for path in VALLEY]}).table))"
    environment = {**os.environ, "PYTHONPATH": str(tmp_path / "site"), "BASIN": basin.find_program()}
    done = subprocess.run(
        [sys.executable, "-c", code],
        cwd=tmp_path,
        env=environment,
        capture_output=True,
        text=True,
        check=True,
    )
    assert done.stdout == f"{tmp_path / 'site/basin/__init__.py'} 365\n"
    del environment["BASIN"]
    environment["PATH"] = "/nonexistent"
    done = subprocess.run(
        [sys.executable, "-c", code],
        cwd=tmp_path,
        env=environment,
        capture_output=True,
        text=True,
        check=False,
    )
    assert "NoProgram: there is no program: name it by program=" in done.stderr


def test_the_bench() -> None:
    words = [TOP / "python/bench", *VALLEY, "Upper.Inflow", "--traces", "20", "--keep", "3", "--workers", "0"]
    done = subprocess.run(words, capture_output=True, text=True, check=True)
    assert "times bare mrm" in done.stdout and "the caller had at most" in done.stdout

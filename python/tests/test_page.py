"""The examples of docs/PYTHON.md print what the page shows."""

from __future__ import annotations

import doctest
import re
import warnings
from pathlib import Path

import pytest

from small import TOP

PAGE = TOP / "docs/PYTHON.md"
BLOCK = re.compile(r"^```pycon\n(.*?)^```$", re.DOTALL | re.MULTILINE)


def test_the_examples_of_the_page(
    tmp_path: Path, monkeypatch: pytest.MonkeyPatch, capsys: pytest.CaptureFixture[str]
) -> None:
    monkeypatch.chdir(tmp_path)
    (tmp_path / "examples").symlink_to(TOP / "examples")
    text = PAGE.read_text()
    names: dict[str, object] = {}
    runner = doctest.DocTestRunner(verbose=False)
    parser = doctest.DocTestParser()
    warnings.simplefilter("ignore", DeprecationWarning)  # of tornado's, in Debian's dask
    for found in BLOCK.finditer(text):
        line = text.count("\n", 0, found.start(1))
        example = parser.get_doctest(found[1], names, PAGE.name, str(PAGE), line)
        runner.run(example, clear_globs=False)
        names = example.globs
    told = capsys.readouterr().out
    assert runner.summarize(verbose=False).failed == 0, told
    assert runner.tries > 20 and (tmp_path / "bands.svg").exists()

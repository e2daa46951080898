"""Reading what the program writes, and frames as rows."""

from __future__ import annotations

import io

import numpy as np
import pandas as pd
import pytest

from basin import tables
from basin.inputs import LaidOver
from basin.rows import Row, batches_of, folded, long_rows, wide_rows
from basin.tables import UNKNOWN, Text, as_floats, chapters, numbers, section_of, sections

from small import inputs, model

TEXT = b"""# batch 0 settled
step,stamp,D.A,D.B
1,2020-01-02T00:00,-5,
2,2020-01-03T00:00,,100000000000000000
# flags
step,D.A,D.B
1,I0,
2,,R1
# batch 1 fault limit object D step 2 after 50
# reran 1 2
step,stamp,D.A,D.B
1,2020-01-02T00:00,7,-100000000000000000
# trace
open 1
close 1
# trace 3 settled
step,stamp,D.A,D.B
# summary 1 of 1
slot,step,known,min,median,max
"""


class Drops(io.BytesIO):
    """A stream of which so many bytes at most are read at once."""

    def __init__(self, text: bytes, most: int) -> None:
        super().__init__(text)
        self.most = most

    def readinto(self, room: memoryview, /) -> int:  # type: ignore[override]
        return super().readinto(room[: self.most])


def rows_of(*lines: bytes) -> Text:
    """Rows as they stand in a section."""
    return np.frombuffer(b"".join(lines), np.uint8)


@pytest.mark.parametrize("most", [1, 7, 1000])
def test_sections(most: int, monkeypatch: pytest.MonkeyPatch) -> None:
    monkeypatch.setattr(tables, "ROOM", 64)  # less than a chapter has
    first, second, third = sections(chapters(Drops(TEXT, most)))
    assert (first.number, first.fault, first.columns) == (0, "", ["D.A", "D.B"])
    assert bytes(first.rows).count(b"\n") == 2
    assert first.flags == ["1,I0,", "2,,R1"] and first.reran is None
    assert (second.fault, second.reran) == ("limit object D step 2 after 50", [1, 2])
    assert second.trace == ["open 1", "close 1"] and second.flags is None
    assert numbers(second.rows, [1, 0]).tolist() == [[-(10**17), 7]]
    assert (third.number, len(third.rows)) == (3, 0)


def test_the_summary_is_no_section_and_is_not_waited_for() -> None:
    *_, last, summary = chapters(io.BytesIO(TEXT))
    assert section_of(last) is not None and section_of(summary) is None
    assert summary == b"# summary 1 of 1\nslot,step,known,min,median,max\n"
    whole = TEXT[: TEXT.index(b"# flags")]
    told = chapters(Stuck(whole), b"2,")
    assert next(told) == whole
    with pytest.raises(AssertionError, match="stuck"):
        next(told)
    with pytest.raises(AssertionError, match="stuck"):
        next(chapters(Stuck(whole[:-1]), b"2,"))


class Stuck(io.BytesIO):
    """A stream behind which nothing comes, and no end."""

    def readinto(self, room: memoryview, /) -> int:  # type: ignore[override]
        count = super().readinto(room)
        assert count, "stuck"
        return count


def test_numbers_of_all_and_of_picked_columns() -> None:
    rows = rows_of(b"1,2020-01-02T00:00,-5,,100000000000000000\n", b"2,2020-01-03T00:00,,0,-100000000000000000\n")
    whole = numbers(rows, range(3))
    assert whole.tolist() == [[-5, UNKNOWN, 10**17], [UNKNOWN, 0, -(10**17)]]
    assert numbers(rows, [2, 0]).tolist() == [[10**17, -5], [-(10**17), UNKNOWN]]
    assert numbers(rows_of(b"a,1,7\n", b"a,2,-123456789012345678\n"), [0]).tolist() == [[7], [-123456789012345678]]
    assert numbers(rows_of(), range(3)).shape == (0, 3) and numbers(rows, []).shape == (2, 0)


def test_numbers_of_each_length_in_rows_of_unlike_lengths() -> None:
    spelt = [0, 7, *(sign * (10**size - 10 ** (size // 2) + 3) for size in range(1, 19) for sign in (1, -1)), 10**18]
    cells: list[int | None] = [*spelt, None]
    table = [[cells[(row * 7 + column * column) % len(cells)] for column in range(9)] for row in range(400)]
    table[:3] = [[None] * 9] * 3  # the first rows are shorter than all others
    table[-1] = [None] * 9  # and the last one
    rows = rows_of(
        *(
            f"{step},2020-01-01T00:00,{','.join('' if cell is None else str(cell) for cell in row)}\n".encode()
            for step, row in enumerate(table, 1)
        )
    )
    wanted = np.array([[UNKNOWN if cell is None else cell for cell in row] for row in table])
    for picks in (range(9), [0], [8], [4, 1, 4], [2, 7]):
        assert (numbers(rows, picks) == wanted[:, list(picks)]).all()


def test_rows_that_are_cut_are_not_read() -> None:
    for last in (b"2,2020-01-03T00:00,4\n", b"2,\n", b"\n"):
        with pytest.raises(ValueError, match="fewer columns"):
            numbers(rows_of(b"1,2020-01-02T00:00,5,6\n", last, b"3,2020-01-04T00:00,5,6\n"), [1, 0])
        with pytest.raises(ValueError, match="fewer columns"):
            numbers(rows_of(b"1,2020-01-02T00:00,5,6\n", last), [1, 0])
        with pytest.raises(ValueError, match="fewer columns"):
            numbers(rows_of(last), [1, 0])
    with pytest.raises(ValueError, match="cut"):
        numbers(rows_of(b"1,2020-01-02T00:00,5,6\n", b"2,2020-01-03T00:00,5,6"), [1, 0])


def test_floats_are_exact_or_refused() -> None:
    assert np.array_equal(
        as_floats(np.array([2**53, -(2**53), UNKNOWN])), [2**53, -(2**53), np.nan], equal_nan=True
    )
    with pytest.raises(OverflowError, match="Int64"):
        as_floats(np.array([2**53 + 1]))


def test_neighbours_with_one_value_are_one_row() -> None:
    steps, values = np.array([1, 2, 3, 5, 6, 7]), np.array([4, 4, 5, 5, UNKNOWN, 5])
    assert [row.text for row in folded("D.A", steps, values)] == [
        "D.A,1-2,4",
        "D.A,3,5",
        "D.A,5,5",
        "D.A,7,5",
    ]


@pytest.mark.parametrize(
    "column",
    [
        [1, 2, 2],
        [1.0, 2.0, 2.0],
        np.array([1, 2, 2], np.uint8),
        pd.array([1, 2, 2], dtype="Int64"),
        pd.Series([1, 2, 2], dtype=object),
    ],
)
def test_columns_of_any_sort(column: object) -> None:
    frame = pd.DataFrame({"Dam.Inflow": column})
    for index in (model().index(3), model().index(3).to_period(), [1, 2, 3]):
        frame.index = pd.Index(index)
        assert [row.text for row in wide_rows(model(), frame)] == ["Dam.Inflow,1,1", "Dam.Inflow,2-3,2"]


@pytest.mark.parametrize(
    "value, why",
    [
        (0.5, "whole number"),
        (2.0**53 + 2, "2.53"),
        (float("inf"), "2.53"),
        ("x", "invalid literal"),
        (True, "whole number"),
        (np.uint64(2**64 - 1), "64 bits"),
        (10**20, "64 bits"),
    ],
)
def test_what_is_not_whole_is_refused(value: object, why: str) -> None:
    with pytest.raises(ValueError, match=why):
        list(wide_rows(model(), pd.DataFrame({"Dam.Inflow": [value]}, index=[1])))


def test_timesteps_of_frames() -> None:
    wanted = ["Dam.Inflow,1,5", "Dam.Inflow,3,6"]
    moments = model().index()[[0, 2]]
    for index in ([1, 3], [1.0, 3.0], moments, moments.astype(object), moments.strftime("%Y-%m-%d")):
        frame = pd.DataFrame({"Dam.Inflow": [5, 6]}, index=pd.Index(index))
        assert [row.text for row in wide_rows(model(), frame)] == wanted
    for odd in (1.5, np.nan, None, pd.NaT, "soon", True):
        with pytest.raises(ValueError, match="no timestep begins|neither a timestep nor a moment"):
            list(wide_rows(model(), pd.DataFrame({"Dam.Inflow": [5, 6]}, index=pd.Index([1, odd], dtype=object))))
    with pytest.raises(ValueError, match="no timestep begins|neither a timestep nor a moment"):
        list(wide_rows(model(), pd.DataFrame({"Dam.Inflow": [5, 6]}, index=[1, 1.5])))


def test_no_trace_is_lost_for_its_name() -> None:
    frame = pd.DataFrame({"Dam.Inflow": [5]}, index=[1])
    with pytest.raises(ValueError, match="trace 1 is given twice"):
        batches_of(model(), {1: frame, "1": frame}, "trace")


@pytest.mark.parametrize(
    "name", ["Dam", "Dam.Inflow,1,5\nDam.Outflow", '=1+1"', "Dam.In flow", 5, "Dam.\x1b[31m"]
)
def test_a_heading_that_is_no_slot_reaches_no_file(name: object) -> None:
    with pytest.raises(ValueError, match="is not a slot") as told:
        list(wide_rows(model(), pd.DataFrame({name: [1]}, index=[1])))
    assert "\x1b" not in str(told.value) and "\n" not in str(told.value)
    with pytest.raises(ValueError, match="is not a slot"):
        long_rows(model(), pd.DataFrame([("a", name, 1, 1)]), "trace")


@pytest.mark.parametrize("time", ["2019-12-31", "2020-01-01T01:00", "2020-01-01T00:00+01:00", "soon"])
def test_moments_at_which_no_timestep_begins(time: str) -> None:
    with pytest.raises(ValueError, match="no timestep begins|neither a timestep nor a moment"):
        long_rows(model(), pd.DataFrame([("a", "Dam.Inflow", time, 1)]), "trace")


def test_timesteps_of_rows_by_number_range_and_moment() -> None:
    frame = pd.DataFrame(
        [("a", "Dam.Inflow", time, 1) for time in (2, "2", "3-4", "2020-01-05", pd.Timestamp(2020, 1, 6))]
    )
    texts = [row.text for row in long_rows(model(), frame, "trace")["a"]]
    assert texts == [f"Dam.Inflow,{steps},1" for steps in ("2", "2", "3-4", "5", "6")]


def test_inputs_under_a_trace() -> None:
    given = inputs('slot,step,value\n"Dam.Inflow",001-003,9\nBelow.GageInflow,2-4,5\n')
    laid = LaidOver(model(), given)
    plain = "slot,step,value\nDam.Inflow,1-3,9\nBelow.GageInflow,2-4,5\n"
    assert laid.under([]) == plain
    rows = [Row("Dam.Outflow", 3, 3, 7), Row("Below.GageInflow", 4, 4, None), Row("Dam.Storage", 1, 1, 0)]
    wanted = ["Dam.Inflow,1-3,9", "Below.GageInflow,2,5", "Dam.Outflow,3,7", "Dam.Storage,1,0"]
    assert laid.under(rows).splitlines()[1:] == wanted
    assert laid.under([]) == plain  # no trace sees another
    assert laid.twice(rows) is None
    assert laid.twice([*rows, Row("Dam.Outflow", 4, 5, 1)]) == Row("Dam.Outflow", 4, 5, 1)

"""What the program writes, read quickly: chapter by chapter from a stream, whole numbers by numpy."""

from __future__ import annotations

import re
from dataclasses import dataclass, field
from typing import Iterable, Iterator, Protocol, Sequence

import numpy as np
import numpy.typing as npt

Whole = npt.NDArray[np.int64]
Text = npt.NDArray[np.uint8]
Places = npt.NDArray[np.int64]
Words = npt.NDArray[np.uint64]
UNKNOWN: int = np.iinfo(np.int64).min  # what stands for a cell that isn't known
EXACT = 2**53  # whole numbers up to this are exact as float64
HEADING = re.compile(rb"# (?:batch|trace) (\d+) (?:settled|fault (.*))\n")
ROOM = 1 << 22  # bytes that are held of a stream at first
ZERO, MINUS, LINE_FEED = b"0-\n"
BEHIND_COMMA = ord(",") + 1  # of all bytes that rows have only a comma and a line feed are below
BESIDE_CELLS = 2  # columns of a table that are no slot's: step and stamp
AT_ONCE = 8  # digits, a byte each in a word of 64 bits, whose first byte is the lowest
ZEROS = np.uint64(0x3030303030303030)
LAST_BYTES = np.array([(1 << 64) - (1 << 8 * (AT_ONCE - size)) for size in range(AT_ONCE + 1)], np.uint64)
LANES = {  # by the bits of what is paired: where the pairs stand
    8: np.uint64(0x00FF00FF00FF00FF),
    16: np.uint64(0x0000FFFF0000FFFF),
    32: np.uint64(0x00000000FFFFFFFF),
}


class Readable(Protocol):
    """A stream: how many bytes were read into the room that is given, 0 at the end."""

    def readinto(self, room: memoryview, /) -> int | None:
        ...


@dataclass
class Section:
    """A section as it was written: its number, its fault or "", its table, and what else was asked for."""

    number: int
    fault: str
    header: bytes = b""
    rows: Text = field(default_factory=lambda: np.empty(0, np.uint8))
    reran: list[int] | None = None
    flags: list[str] | None = None
    trace: list[str] = field(default_factory=list)

    @property
    def columns(self) -> list[str]:
        """Returns the slots of the table."""
        return self.header.decode().split(",")[BESIDE_CELLS:]

    def take(self, chapter: bytearray) -> None:
        """Reads one of its chapters: the table is after its own heading, or after that of the timesteps that were rerun."""
        begin = chapter.index(b"\n") + 1
        heading = bytes(chapter[:begin])
        if heading == b"# flags\n":
            self.flags = chapter[begin:].decode().splitlines()[1:]
        elif heading == b"# trace\n":
            self.trace = chapter[begin:].decode().splitlines()
        else:
            if heading.startswith(b"# reran"):
                self.reran = [int(word) for word in heading.split()[2:] if word != b"none"]
            if begin < len(chapter):
                self.header, self.rows = table_in(chapter)


def table_in(chapter: bytearray) -> tuple[bytes, Text]:
    """Returns the header and the rows of a chapter's table."""
    begin = chapter.index(b"\n") + 1
    end = chapter.index(b"\n", begin)
    return bytes(chapter[begin:end]), np.frombuffer(chapter, np.uint8)[end + 1 :]


def chapters(stream: Readable, last: bytes = b"") -> Iterator[bytearray]:
    """Yields the text from each line that begins with # up to the next one, and holds only one at a time.

    A row that begins with `last` also ends its chapter, so that the reader does not wait for more.
    """
    held = bytearray(ROOM)
    begin = end = 0
    while count := read_behind(held, end, stream):
        seen, end = end, end + count
        while stop := end_of_chapter(held, begin, seen, end, last):
            yield held[begin:stop]
            begin = stop
        if begin:
            held[: end - begin] = held[begin:end]
            begin, end = 0, end - begin
        elif end == len(held):
            held.extend(bytes(end))
    if end:
        yield held[:end]


def read_behind(held: bytearray, end: int, stream: Readable) -> int:
    """Reads more, after the text that is held already."""
    with memoryview(held) as room, room[end:] as behind:
        return stream.readinto(behind) or 0


def end_of_chapter(held: bytearray, begin: int, seen: int, end: int, last: bytes) -> int:
    """Returns where the chapter ends that begins there, or 0; so far it was seen before. No line has a # but in front."""
    stop = held.find(b"#", max(begin + 1, seen), end)
    if stop > 0:
        return stop
    is_whole = last and begin < end and held[end - 1] == LINE_FEED
    return end if is_whole and held.startswith(last, held.rfind(b"\n", begin, end - 1) + 1) else 0


def section_of(chapter: bytearray) -> Section | None:
    """Returns the section that a chapter begins, or `None` where it begins none."""
    found = HEADING.match(chapter)
    if not found:
        return None
    section = Section(int(found[1]), (found[2] or b"").decode())
    section.take(chapter)
    return section


def sections(told: Iterable[bytearray]) -> Iterator[Section]:
    """Yields the sections that chapters make, of which one alone is held."""
    now: Section | None = None
    for chapter in told:
        if begun := section_of(chapter):
            if now:
                yield now
            now = begun
        elif now:
            now.take(chapter)
    if now:
        yield now


def numbers(rows: Text, picks: Sequence[int]) -> Whole:
    """Returns the values of the picked columns of rows, by timestep and column; `UNKNOWN` where a cell is empty.

    Of each row only the beginning is read, up to the last of these columns: about as far as in the first row.
    """
    if len(rows) and rows[-1] != LINE_FEED:
        raise ValueError("the last row is cut")
    ends = np.flatnonzero(rows == LINE_FEED)
    wanted = np.asarray(picks, dtype=np.int64) + BESIDE_CELLS
    if not len(ends) or not len(wanted):
        return np.empty((len(ends), len(wanted)), np.int64)
    begins = np.append(0, ends[:-1] + 1)
    longest = int((ends - begins).max()) + 1
    first = np.flatnonzero(rows[: ends[0] + 1] < BEHIND_COMMA)[: wanted.max() + 1]
    width = int(first[-1]) * 3 // 2 + AT_ONCE
    while True:
        width = min(width, longest)
        cells = cells_of(rows, begins, ends, width, wanted)
        if cells:
            return whole_numbers(*cells).T
        if width == longest:
            raise ValueError("a row has fewer columns than its table")
        width *= 2


def cells_of(
    rows: Text, begins: Places, ends: Places, width: int, wanted: Places
) -> tuple[Text, Places, Places] | None:
    """Returns a text, and where the cells begin and end in it, by column and row: of each row the beginning, of this number of
    bytes. `None` if one is too short."""
    starts = np.minimum(begins, len(rows) - width)
    windows: Text = np.ndarray((len(rows) - width + 1, width), np.uint8, rows, strides=(1, 1))  # one from each byte on
    fronts = windows[starts]
    moved = np.arange(0, fronts.size, width) - starts  # from a place in the rows to that in the fronts
    commas = np.flatnonzero(fronts < BEHIND_COMMA)
    places = np.searchsorted(commas, begins + moved) + wanted[:, None]
    furthest = places[wanted.argmax()]
    if furthest[-1] >= len(commas):
        return None
    last = np.minimum(ends, starts + width - 1) + moved
    if (commas[furthest] > last).any():
        return None
    return fronts.ravel(), commas[places - 1] + 1, commas[places]


def whole_numbers(text: Text, begins: Places, ends: Places) -> Whole:
    """Returns the numbers between places of a text, `UNKNOWN` where there is none."""
    minus = text[begins] == MINUS
    size = ends - begins - minus
    padded = np.concatenate([np.zeros(AT_ONCE, np.uint8), text])
    words: Words = np.ndarray(len(text) + 1, "<u8", padded, strides=(1,))  # the bytes before each place
    found = last_digits(words[ends], size)
    for behind in range(AT_ONCE, int(size.max(initial=0)), AT_ONCE):
        more = size > behind
        found[more] += last_digits(words[ends[more] - behind], size[more] - behind) * 10**behind
    np.negative(found, where=minus, out=found)
    found[size == 0] = UNKNOWN
    return found


def last_digits(words: Words, size: Places) -> Whole:
    """Returns the numbers that the last bytes of words spell: this number of bytes, or all where a number is longer.

    All digits of a word at once: each pair of neighbours becomes one number, which becomes one of the next pair.
    """
    words = (words ^ ZEROS) & LAST_BYTES[np.minimum(size, AT_ONCE)]
    for bits, lanes in LANES.items():
        words = (words * np.uint64(10 ** (bits // 8)) + (words >> np.uint64(bits))) & lanes
    return words.view(np.int64)


def as_floats(values: Whole) -> npt.NDArray[np.float64]:
    """float64 with NaN for what is not known. Raises `OverflowError` where a value would not be exact."""
    if not is_exact(values):
        raise OverflowError('a value beyond 2^53 isn\'t exact as float64: ask for numbers="Int64"')
    floats = values.astype(np.float64)
    floats[values == UNKNOWN] = np.nan
    return floats


def is_exact(values: Whole) -> bool:
    """Returns whether float64 has each known value. `UNKNOWN` is its own absolute value, and below all."""
    return bool((np.abs(values) <= EXACT).all())

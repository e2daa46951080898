"""The files that are worked on: what the disk has, what was read of it, how it is saved, and the draft beside it."""

import fcntl
import hashlib
import json
import os
import tempfile
from dataclasses import dataclass
from pathlib import Path
from threading import Lock

from basin_files.formats import GREATEST_FILE
from basin_files.program import Unable
from basin_files.reasons import plain

DRAFT = ".workbench-draft.json"
ASIDE = ".workbench-draft-before.json"  # an earlier draft that nobody took up or discarded
PARTS = ("model", "policy", "inputs")
NOTHING = "none"  # the mark of a file that isn't there


class Refused(Exception):
    """Something isn't saved, and why; `which` names the part."""

    def __init__(self, which: str, says: str):
        super().__init__(says)
        self.which = which


def mark_of(content: bytes | None) -> str:
    """What tells one content from another."""
    return NOTHING if content is None else hashlib.sha256(content).hexdigest()


def written(path: Path, content: bytes, is_lasting: bool = True) -> None:
    """Writes a file so that it is there wholly or not at all, with the rights that it had; lasting, also if the power fails."""
    mode = path.stat().st_mode & 0o777 if path.exists() else 0o666 & ~umask()
    handle, name = tempfile.mkstemp(dir=path.parent, prefix=f".{path.name}.", suffix=".new")
    try:
        with os.fdopen(handle, "wb") as file:
            file.write(content)
            if is_lasting:
                file.flush()
                os.fsync(file.fileno())
        os.chmod(name, mode)
        os.replace(name, path)
    except BaseException:
        Path(name).unlink(missing_ok=True)
        raise
    if is_lasting:
        folder = os.open(path.parent, os.O_RDONLY)
        try:
            os.fsync(folder)
        finally:
            os.close(folder)


def umask() -> int:
    """The rights that new files don't have."""
    mask = os.umask(0)
    os.umask(mask)
    return mask


@dataclass
class Part:
    """A file: its path, its bytes as they were read, and why it can't be saved, where it can't."""

    path: Path
    content: bytes
    unsaved: str = ""

    @property
    def mark(self) -> str:
        """The mark of what was read."""
        return mark_of(self.content)

    def on_disk(self) -> bytes | None:
        """What the disk has."""
        try:
            return self.path.read_bytes()
        except FileNotFoundError:
            return None


class Desk:
    """The files of a basin, all of one folder, which is locked for one workbench."""

    def __init__(self, model: str, policy: str | None, inputs: str):
        self.folder = Path(model).resolve().parent
        self.parts = {name: self.part(name, path) for name, path in zip(PARTS, (model, policy, inputs)) if path}
        self.keeping, self.kept = Lock(), 0
        self.is_found = self.draft() is not None  # an earlier draft, of which nobody has said what becomes of it
        self.lock = os.open(self.folder, os.O_RDONLY | os.O_DIRECTORY)
        try:
            fcntl.flock(self.lock, fcntl.LOCK_EX | fcntl.LOCK_NB)
        except OSError:
            os.close(self.lock)
            raise Unable(f"another workbench has {plain(str(self.folder))} open: end the other one first") from None

    def __enter__(self) -> "Desk":
        return self

    def __exit__(self, *_: object) -> None:
        os.close(self.lock)

    def part(self, name: str, given: str) -> Part:
        """A part as it is read. One that lies outside of the model's folder is looked at and never saved."""
        path = Path(given).resolve()
        try:
            content = path.read_bytes()
            content.decode("utf-8")
        except OSError as error:
            raise Unable(f"cannot read {plain(given)}: {error.strerror}") from None
        except UnicodeDecodeError:
            raise Unable(f"{plain(given)} is not UTF-8: save the file as UTF-8 first") from None
        if len(content) > GREATEST_FILE:
            raise Unable(f"{plain(given)} has more than {GREATEST_FILE:,} bytes")
        if name == "policy" and content.startswith(b"CODE 1\n"):
            raise Unable(f"{plain(given)} is code: the workbench edits rulesets")
        is_outside = not path.is_relative_to(self.folder)
        return Part(path, content, f"it is outside of {self.folder}, the model's folder" if is_outside else "")

    # ---- what the page is given

    def opened(self) -> dict:
        """All texts as they were read, their names and marks, and the draft where one is there."""
        return {
            "folder": self.folder.name,
            "files": {
                name: {"name": part.path.name, "text": part.content.decode(), "mark": part.mark, "unsaved": part.unsaved}
                for name, part in self.parts.items()
            },
            "draft": self.draft(),
        }

    def reread(self) -> None:
        """Reads the files again, as others have left them."""
        for name, part in self.parts.items():
            self.parts[name] = self.part(name, str(part.path))

    # ---- the draft

    def draft(self) -> dict | None:
        """What an earlier workbench left: texts, the marks of the files that they were made of, and when."""
        try:
            told = json.loads((self.folder / DRAFT).read_bytes())
            texts, marks, when = told["texts"], told["marks"], int(told["when"])
            if not all(isinstance(texts[name], str) and isinstance(marks[name], str) for name in self.parts):
                return None
        except (OSError, ValueError, KeyError, TypeError):
            return None
        if all(texts[name].encode() == part.content for name, part in self.parts.items()):
            return None
        changed = [name for name, part in self.parts.items() if texts[name].encode() != part.content]
        moved = [name for name, part in self.parts.items() if marks[name] != part.mark]
        return {"texts": {name: texts[name] for name in self.parts}, "when": when, "changed": changed, "moved": moved}

    def keep(self, texts: dict[str, str], when: int) -> None:
        """Keeps a draft of a moment, unless there is a later one; none where nothing differs from the files."""
        with self.keeping:
            if when > self.kept:
                self.kept = when
                self.keep_now(texts, when)

    def keep_now(self, texts: dict[str, str], when: int) -> None:
        """Keeps a draft. One that was found here and not answered for is put aside, and not lost."""
        if self.is_found and any(texts[name].encode() != part.content for name, part in self.parts.items()):
            os.replace(self.folder / DRAFT, self.folder / ASIDE)
            self.is_found = False
        if self.is_found:
            return
        if all(texts[name].encode() == part.content for name, part in self.parts.items()):
            self.forget()
            return
        marks = {name: part.mark for name, part in self.parts.items()}
        written(self.folder / DRAFT, json.dumps({"texts": texts, "marks": marks, "when": when}).encode(), is_lasting=False)

    def forget(self) -> None:
        """Keeps no draft."""
        self.is_found = False
        (self.folder / DRAFT).unlink(missing_ok=True)

    # ---- saving

    def save(self, texts: dict[str, str]) -> dict:
        """Saves what differs, if the disk still has what was read: all of it, or nothing."""
        changed = {name: part for name, part in self.parts.items() if texts[name].encode() != part.content}
        for name, part in changed.items():
            if part.unsaved:
                raise Refused(name, f"{part.path.name} isn't saved: {part.unsaved}.")
            if part.path.resolve() != part.path:
                raise Refused(name, f"{part.path.name} is not saved: it has become a link to another file.")
            if mark_of(part.on_disk()) != part.mark:
                raise Refused(name, f"{part.path.name} was changed by another program since it was opened, so nothing was saved.")
        for name, part in changed.items():
            content = texts[name].encode()
            try:
                written(part.path, content)
            except OSError as error:
                raise Refused(name, f"{part.path.name} cannot be written: {error.strerror}.") from None
            part.content = content
        self.forget()
        return {"saved": [part.path.name for part in changed.values()], "marks": {name: part.mark for name, part in self.parts.items()}}

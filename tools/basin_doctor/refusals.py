"""What the doctor says of a file that is refused: its own reading of model, inputs, edits and traces."""

import re

from basin_files import formats
from basin_files.judging import read_model
from basin_files.model import Model
from basin_files.program import bytes_of
from basin_files.reasons import plain

from .saying import ALSO_WRONG, NOTE, WRONG, head, say

MOST_TOLD = 20  # of what else is wrong
TOML_HINTS = {
    "Illegal character '\\n'": ": a text has no closing quote",
    "Unterminated string": ": a text has no closing quote",
    "Cannot overwrite a value": ": the table already has this key",
    "Cannot declare": ": the file already has this table",
    "Invalid value": ": write a text in quotes, and a number without a comma",
    "Expected newline": ": there is something after the value",
    "Unclosed array": ": is a comma or a ] missing?",
    "Unclosed inline table": ": is a comma or a } missing?",
    "Expected '=' after a key": ": a line is key = value, or a [table]",
}


class File:
    """A file that is judged: its name, its bytes, and its lines."""

    def __init__(self, path: str):
        self.path = plain(str(path))
        self.content = bytes_of(path)
        self.lines = self.content.decode("utf-8", "replace").split("\n")

    def at(self, line: int) -> tuple[str, str]:
        """The place of a line, and the line itself, for people to read."""
        text = self.lines[line - 1].rstrip("\r") if line <= len(self.lines) else ""
        return f"{self.path} line {line}", f"    {line} | {plain(text.replace(chr(9), ' '))}"

    def where(self, line: int, column: int | None = None) -> dict[str, object]:
        """Returns the place of a line as JSON has it."""
        return {"file": self.path, "line": line, **({"column": column} if column else {})}


def meaning(refusal: str) -> str:
    """What a refusal means in general, by its words alone."""
    model = re.fullmatch(r"basin: model: (.*)", refusal, re.DOTALL)
    rows = re.fullmatch(r"basin: (?:inputs|edits): row [0-9]+ column [0-9]+: (.*)", refusal)
    if rows:
        return {**formats.INPUTS_REFUSALS, **formats.EDITS_REFUSALS}.get(rows[1], "")
    if model:
        return formats.MODEL_REFUSALS.get(kind_of(model[1]), "")
    words = (what for name, what in formats.OTHER_REFUSALS.items() if refusal.startswith(f"basin: {name}"))
    return next(words, "")


def kind_of(words: str) -> str:
    """A refusal of a model without its path: `build bad parameter` of `build run.steps: bad parameter`."""
    build = re.fullmatch(r"(build|table) .*: ([a-z ]+)", words, re.DOTALL)
    if build:
        return f"{build[1]} {build[2]}"
    known = (name for name in formats.MODEL_REFUSALS if words == name or words.startswith(f"{name} "))
    return words.replace(": ", " ") if words.startswith("calendar: ") else next(known, words)


def tell_findings(refusal: str, findings: list, file: File) -> None:
    """Tells of a refusal what this tool's own reading has on it, and then what else is wrong."""
    here = next((finding for finding in findings if finding.refusal == refusal.split(": ", 2)[2]), None)
    if here:
        place, line = file.at(here.line)
        say(WRONG, f"{place}: {here.says}", line, **file.where(here.line))
    else:
        say(WRONG, meaning(refusal) or "This tool does not know this error message.", file=file.path)
    others = [finding for finding in findings if finding is not here]
    if others:
        head("Also wrong, by this tool's own check:" if here else "Wrong, by this tool's own check:")
    tell_alike(others, file)


def tell_alike(findings: list, file: File) -> None:
    """A line for each thing that is wrong, however many lines of the file have it."""
    alike = {}
    for finding in findings:
        alike.setdefault(finding.says, []).append(finding.line)
    for says, (first, *lines) in list(alike.items())[:MOST_TOLD]:
        more = f" The same error is in {len(lines)} more line{'s' * (len(lines) > 1)}." if lines else ""
        say(ALSO_WRONG, f"{file.at(first)[0]}: {says}{more}", **file.where(first))
    if len(alike) > MOST_TOLD:
        say(NOTE, f"and {len(alike) - MOST_TOLD} more")


def tell_no_toml(file: File) -> None:
    """Tells where the bytes of a file stop being TOML."""
    content = file.content
    if content[:2] in (b"\xff\xfe", b"\xfe\xff"):
        say(WRONG, f"{file.path} is UTF-16: save it as UTF-8.", file=file.path)
        return
    try:
        read_model(content)
    except UnicodeDecodeError as error:
        before = content[: error.start]
        line, column = before.count(b"\n") + 1, error.start - (before.rfind(b"\n") + 1) + 1
        place, shown = file.at(line)
        says = f"the byte {content[error.start]:#04x} is not UTF-8: save the file as UTF-8."
        say(WRONG, f"{place}, column {column}: {says}", shown, **file.where(line, column))
    except ValueError as error:
        tell_toml_error(file, str(error))
    else:
        tell_large_numbers(file)


def tell_toml_error(file: File, message: str) -> None:
    """Tells what Python's reader of TOML says, and shows the line."""
    found = re.fullmatch(
        r"(.*) \(at (?:line ([0-9]+), column ([0-9]+)|end of document)\)", message, re.DOTALL
    )
    line = int(found[2]) if found and found[2] else len(file.lines)
    where = f"{file.at(line)[0]}, column {found[3]}" if found and found[2] else f"{file.path}, at its end"
    hint = next((hint for words, hint in TOML_HINTS.items() if message.startswith(words)), "")
    says = f"{where}: {plain(found[1] if found else message)}{hint}{'' if hint[-1:] == '?' else '.'}"
    say(WRONG, says, file.at(line)[1], **file.where(line, int(found[3]) if found and found[3] else None))


def tell_large_numbers(file: File) -> None:
    """Tells what Python's reader takes and `basin` doesn't: numbers beyond 64 bits."""
    numbers = [
        number
        for number, line in enumerate(file.lines, 1)
        if any(abs(int(digits)) >= 2**63 for digits in re.findall(r"(?<![\w.])[0-9]{19,}(?![\w.])", line))
    ]
    if not numbers:
        words = "Python's TOML reader accepts the file, so this tool cannot say where `basin` stops."
        say(WRONG, words, file=file.path)
        return
    place, line = file.at(numbers[0])
    says = f"{place}: a number needs more than 64 bits, and TOML does not require a reader to accept it: write a smaller one."
    say(WRONG, says, line, **file.where(numbers[0]))


def judged(file: File) -> Model | None:
    """The model of a file as this tool reads it, or `None` where it can't."""
    try:
        return read_model(file.content)
    except ValueError:
        return None


def tell_model(answer: str, file: File) -> None:
    """Tells why a model is refused."""
    if answer == "basin: model: not TOML":
        tell_no_toml(file)
        return
    model = judged(file)
    tell_findings(answer, model.findings if model else [], file)

"""How the doctor says something: as lines for people at once, or at the end as one JSON document for programs."""

import json
from dataclasses import dataclass, field

ANSWER, WRONG, ALSO_WRONG, NEVER, SURPRISE = "answer", "wrong", "also wrong", "never", "may surprise"
RUN, MEND, NOTE = "run", "mend", "note"  # the heading of a run, what is to be mended in it, and what is not


@dataclass
class Said:
    """What was said. With `as_json` nothing is printed before the end."""

    as_json: bool = False
    items: list[dict[str, object]] = field(default_factory=list)

    def say(self, kind: str, *lines: str, **where: object) -> None:
        """Says some lines of a kind, with the file, the line and the column that they are of, where they are of one."""
        if self.as_json:
            self.items.append({"kind": kind, **where, "text": "\n".join(lines)})
        else:
            print("\n".join(lines))

    def head(self, line: str) -> None:
        """Says a line above what comes next, of which JSON has the kind."""
        if not self.as_json:
            print(line)

    def end(self, status: int) -> int:
        """Writes the document where one is due, and returns the status."""
        if self.as_json:
            print(json.dumps({"status": status, "items": self.items}, indent=1))
        return status


SAID = Said()
say, head = SAID.say, SAID.head

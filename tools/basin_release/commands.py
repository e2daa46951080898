"""The commands as docs/GUIDE.md has them, and what is made of that table: help, manual page, completion."""

import re
import sys
import textwrap
from dataclasses import dataclass
from pathlib import Path

from basin_files.program import Unable

HEADING = "## All commands"
WIDTH = 79  # of help, in letters
OWN_WORDS = ("help", "--help", "--version")  # of the launcher


@dataclass(frozen=True)
class Option:
    """An option, and what stands behind it: nothing, the name of a file in capitals, or the one word that it takes."""

    name: str
    value: str


@dataclass(frozen=True)
class Command:
    """A row of the table."""

    words: tuple[str, ...]
    writes: str
    options: tuple[Option, ...]
    statuses: str


def section(guide: str) -> str:
    """The guide's section on all commands, up to the next one."""
    found = re.search(rf"^{HEADING}$.*?(?=^## |\Z)", guide, re.MULTILINE | re.DOTALL)
    if not found:
        raise Unable(f"docs/GUIDE.md has no section `{HEADING}`")
    return found[0]


def rows_of(guide: str, count: int) -> list[list[str]]:
    """The rows with so many cells of the section's tables, without their headings."""
    rows = [[cell.strip() for cell in line.split("|")[1:-1]] for line in section(guide).splitlines() if line.startswith("| `")]
    if any(len(row) not in (3, 4) for row in rows) or not (found := [row for row in rows if len(row) == count]):
        raise Unable("the tables of commands and options in docs/GUIDE.md aren't read")
    return found


def commands_of(guide: str) -> list[Command]:
    """The rows of the table of commands."""
    rows = rows_of(guide, 4)
    return [Command(tuple(row[0].strip("`").split()), row[1], options_in(row[2]), row[3]) for row in rows]


def explained(guide: str) -> list[tuple[str, str, str]]:
    """The rows of the table of options: each option, the commands that have it, and what it does."""
    found = [(row[0].strip("`"), row[1], row[2]) for row in rows_of(guide, 3)]
    named = {f"{it.name} {it.value}".strip() for command in commands_of(guide) for it in command.options}
    if differ := named ^ {name for name, _, _ in found}:
        raise Unable(f"docs/GUIDE.md explains other options than its commands have: {', '.join(sorted(differ))}")
    return found


def options_in(cell: str) -> tuple[Option, ...]:
    """The options of a command."""
    found = (text.partition(" ") for text in re.findall(r"`([^`]+)`", cell))
    return tuple(Option(name, value) for name, _, value in found)


def remarks(guide: str) -> str:
    """What the section says below its table."""
    return section(guide).rpartition("|\n")[2].strip()


# ---- help


def help_text(guide: str) -> str:
    """The commands and options for a terminal: plain lines, none of them wider than 80 columns."""
    lines = ["basin COMMAND WORD..", "", "Commands:"]
    for command in commands_of(guide):
        lines += [f"  {' '.join(command.words)}", *filled(f"Writes {command.writes}. Status {command.statuses}.")]
        if command.options:
            lines += filled("Options: " + ", ".join(f"{it.name} {it.value}".strip() for it in command.options) + ".")
    lines += ["", "Options:"]
    for name, commands, does in explained(guide):
        lines += [f"  {name}", *filled(f"({commands}) {does}.")]
    return "\n".join([*lines, "", *filled(remarks(guide), ""), ""])


def filled(text: str, margin: str = "      ") -> list[str]:
    """A text as lines of a terminal, without backquotes."""
    text = text.replace("`", "")
    return textwrap.wrap(text, WIDTH, initial_indent=margin, subsequent_indent=margin, break_long_words=False, break_on_hyphens=False)


# ---- the manual page


def roff(text: str) -> str:
    """A text as roff prints it as it is, with what stands in backquotes in bold."""
    text = text.replace("\\", "\\e").replace("-", "\\-").replace("'", "\\(aq")
    text = re.sub(r"`([^`]*)`", r"\\fB\1\\fR", text)
    return re.sub(r"^\.", r"\\&.", text, flags=re.MULTILINE)


def entry(command: Command) -> list[str]:
    """The lines of a command."""
    options = [f"[{option.name}{' ' if option.value else ''}{option.value}]" for option in command.options]
    name, *others = command.words
    head = " ".join([f"`{name}`", *others, *options])
    return [".TP", roff(head), roff(f"Writes {command.writes}. Statuses: {command.statuses}.")]


def manual(guide: str, version: str, day: str) -> str:
    """The manual page basin.1."""
    lines = [
        f'.TH BASIN 1 "{roff(day)}" "basin {version}" "User Commands"',
        ".SH NAME", "basin \\- simulate regulated river basins, proved to write what the definitions give",
        ".SH SYNOPSIS", ".B basin", "\\fICOMMAND\\fR \\fIWORD\\fR...", ".br", ".B basin", "help | \\-\\-help | \\-\\-version",
        ".SH DESCRIPTION",
        "Reads a model, rules, inputs, edits and traces from files, and writes tables to the standard output.",
        "A refusal is one line on the standard error.",
        ".SH COMMANDS", *(line for command in commands_of(guide) for line in entry(command)),
        ".SH OPTIONS", "An option may be anywhere after the command.",
        *(line for name, whose, does in explained(guide) for line in (".TP", roff(f"`{name}`"), roff(f"({whose}) {does}."))),
        ".SH \"EXIT STATUS\"", "0 and 1 mean what is said of each command.", roff(remarks(guide).partition(" `docs/FORMATS.md`")[0]),
        ".SH FILES",
        "The folder in which the program is installed has the guide (\\fIdocs/GUIDE.md\\fR), the references",
        "(\\fIdocs/FORMATS.md\\fR, \\fIdocs/LANGUAGE.md\\fR), \\fIexamples\\fR, scripts (\\fItools\\fR), and",
        "\\fIPROOF.txt\\fR, which says what was proved. The Debian package has it at \\fI/usr/lib/basin\\fR, and",
        "each script as a command of its own: \\fBbasin\\-doctor\\fR, \\fBbasin\\-require\\fR and so on.",
        ".SH EXAMPLES", ".EX",
        "basin simulate examples/one\\-reservoir/model.toml examples/one\\-reservoir/inputs.csv", ".EE",
    ]
    return "\n".join(lines) + "\n"


# ---- completion


def completion(guide: str) -> str:
    """What has Bash complete commands, options, what stands behind them, and files."""
    commands = commands_of(guide)
    names = " ".join([*(command.words[0] for command in commands), *OWN_WORDS])
    options = [f"  {it.words[0]}) options='{' '.join(option.name for option in it.options)}' ;;" for it in commands]
    fixed = {option.name: option.value for it in commands for option in it.options if option.value and not option.value.isupper()}
    behind = [f"  {name}) choices='{value}' ;;" for name, value in sorted(fixed.items())]
    return COMPLETION.replace("NAMES", names).replace("OPTIONS", "\n".join(options)).replace("BEHIND", "\n".join(behind))


COMPLETION = """# Completion for Bash of basin's words, made of the table of commands in docs/GUIDE.md.
_basin() {
  local word=${COMP_WORDS[COMP_CWORD]} options='' choices=''
  case ${COMP_WORDS[1]} in
OPTIONS
  esac
  case ${COMP_WORDS[COMP_CWORD - 1]} in
BEHIND
  esac
  if [ "$COMP_CWORD" -eq 1 ]; then
    choices='NAMES'
  elif [[ $word == -* ]]; then
    choices=$options
  fi
  if [ -n "$choices" ]; then
    mapfile -t COMPREPLY < <(compgen -W "$choices" -- "$word")
  else
    mapfile -t COMPREPLY < <(compgen -f -- "$word")
  fi
}
complete -o filenames -F _basin basin
"""


def completion_of_fish(guide: str) -> str:
    """The same for fish."""
    commands, at_first = commands_of(guide), "complete -c basin -n 'test (count (commandline -opc)) -eq 1'"
    lines = ["# Completion for fish of basin's words, made of the table of commands in docs/GUIDE.md."]
    lines += [f"{at_first} -f -a '{command.words[0]}' -d {quoted(command.writes)}" for command in commands]
    lines.append(f"{at_first} -f -a '{' '.join(word for word in OWN_WORDS if word[0] != '-')}'")
    for command in commands:
        for option in command.options:
            behind = "" if not option.value else " -r" if option.value.isupper() else f" -x -a '{option.value}'"
            seen = f"-n '__fish_seen_subcommand_from {command.words[0]}'"
            lines.append(f"complete -c basin {seen} -l {option.name.removeprefix('--')}{behind}")
    return "\n".join(lines) + "\n"


def completion_of_zsh(guide: str) -> str:
    """The same for zsh, a file _basin on its path of functions."""
    commands = commands_of(guide)
    lines = ["#compdef basin", "# Completion for zsh of basin's words, made of the table of commands in docs/GUIDE.md.", "local -a commands=("]
    lines += [f"  {quoted(command.words[0] + ':' + command.writes.replace(':', ','))}" for command in commands]
    lines += ["  'help:all commands'", ")", "if (( CURRENT == 2 )); then _describe command commands; return; fi", "local -a options=()"]
    lines.append("case $words[2] in")
    for command in commands:
        options = []
        for option in command.options:
            behind = "" if not option.value else f":{option.value}:_files" if option.value.isupper() else f":order:({option.value})"
            options.append(f"'{option.name}{'=-' if behind else ''}{behind}'")
        lines.append(f"  {command.words[0]}) options=({' '.join(options)}) ;;")
    return "\n".join([*lines, "esac", "_arguments $options '*:file:_files'"]) + "\n"


def quoted(text: str) -> str:
    """A text between marks, as both shells read it."""
    text = text.replace("`", "").replace("'", "\u2019")
    return f"'{text}'"


if __name__ == "__main__":  # `./basin help` of a checkout
    sys.stdout.write(help_text(Path(sys.argv[1]).read_text()))

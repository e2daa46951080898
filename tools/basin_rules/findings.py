"""What is wrong with a ruleset or with code, and how it is told."""

from dataclasses import dataclass, field

from .places import Source, Span


@dataclass
class Finding:
    """What is wrong: `basin`'s words for it, where it stands, what is told of it, and what may be meant."""

    refusal: str
    span: Span
    says: str
    hint: str = ""
    more: list[str] = field(default_factory=list)  # lines beside it
    whose: str = ""  # the declaration, or the block


def told(finding: Finding, source: Source) -> list[str]:
    """The lines that tell of a finding, with the text and a mark below what it is of."""
    whose = f" ({finding.whose})" if finding.whose else ""
    lines = [f"{source.path} {source.place(finding.span.begin)}{whose}: {finding.says}."]
    lines += source.marked(finding.span)
    lines += [f"    {line}" for line in finding.more]
    return lines + ([f"Hint: {finding.hint}."] if finding.hint else [])


def told_short(finding: Finding, source: Source) -> str:
    """One line that tells of a finding."""
    whose = f" ({finding.whose})" if finding.whose else ""
    return f"{source.path} {source.place(finding.span.begin)}{whose}: {finding.says}."

"""Findings in front of people: a sentence behind its place."""

from __future__ import annotations

from .program import Source
from .sentences import Finding


def told(sources: list[Source], finding: Finding) -> str:
    """The finding's sentence, behind its file, line and column as far as it has them."""
    if finding.file is None:
        return finding.sentence
    source = sources[finding.file]
    if finding.at is None:
        return f"{source.path}: {finding.sentence}"
    line, column = source.text.point(finding.at)
    return f"{source.path}:{line}:{column}: {finding.sentence}"


def pointed(sources: list[Source], finding: Finding) -> str:
    """The same, and where it has a place the line with a caret below."""
    if finding.file is None or finding.at is None:
        return told(sources, finding)
    return f"{told(sources, finding)}\n{sources[finding.file].text.shown(finding.at)}"

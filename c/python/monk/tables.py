"""A comparison as a table, in a terminal and in a notebook."""

from __future__ import annotations

import html
from typing import TYPE_CHECKING, List, Sequence

from .run import NO_SUCH_CALL, RIGHT, STUCK, WRONG

if TYPE_CHECKING:
    from .orders import Comparison, Finding

HEADS = ("kind", "outcome", "runs", "bad", "the shortest that went wrong")
ALIGNED = ("<5", "<12", ">6", ">5")
MARGIN = " " * 33
COLORS = {True: "#2f855a", False: "#b42318"}


def _cells(finding: Finding) -> List[str]:
    """Kind, outcome, runs, and how many went wrong."""
    bad = sum(finding.bad.values())
    more = "" if finding.is_whole or finding.outcome == NO_SUCH_CALL else "+"
    return [finding.kind, finding.outcome, f"{finding.runs}{more}", str(bad or "")]


def _reasons(finding: Finding) -> List[str]:
    """What the shortest run that went wrong says."""
    run = finding.example
    if finding.holds:
        return []
    return [line for line in (f"{run.fault}, after event {run.at}", run.between) if line]


def _summary(found: Comparison) -> str:
    """The kinds by outcome. Kinds that weren't tried in every order are named apart."""
    groups = {}
    for word in (NO_SUCH_CALL, WRONG, STUCK):
        groups[word] = [kind for kind, it in found.findings.items() if it.outcome == word]
    right = [it for it in found.findings.values() if it.outcome == RIGHT]
    groups["right in every order"] = [it.kind for it in right if it.is_whole]
    groups["right as far as tried"] = [it.kind for it in right if not it.is_whole]
    return "; ".join(f"{word}: {', '.join(kinds)}" for word, kinds in groups.items() if kinds)


def table(found: Comparison) -> str:
    lines = [f"{found.name}: {found.how}", _line(HEADS[:-1], HEADS[-1])]
    for finding in found.findings.values():
        reasons = _reasons(finding)
        lines += [_line(_cells(finding), "".join(reasons[:1])), *(MARGIN + reason for reason in reasons[1:])]
    return "\n".join([*lines, _summary(found)])


def _line(cells: Sequence[str], last: str) -> str:
    return (" ".join(format(cell, align) for cell, align in zip(cells, ALIGNED)) + "  " + last).rstrip()


def html_table(found: Comparison) -> str:
    left = " style='text-align:left'"
    rows = [f"<tr>{''.join(f'<th{left}>{head}</th>' for head in HEADS)}</tr>"]
    for finding in found.findings.values():
        kind, outcome, runs, bad = _cells(finding)
        why = "<br>".join(map(html.escape, _reasons(finding)))
        rows.append(f"<tr><th{left}>{kind}</th><td style='color:{COLORS[finding.holds]};text-align:left'>{outcome}</td>"
                    f"<td>{runs}</td><td>{bad}</td><td{left}>{why}</td></tr>")
    caption = f"<caption>{html.escape(f'{found.name}: {found.how}')}</caption>"
    return f"<table>{caption}{''.join(rows)}</table><p>{html.escape(_summary(found))}</p>"

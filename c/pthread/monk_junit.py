"""The table of a try as JUnit's XML: a test case for each cell. Part of monk-try."""
import shlex
from typing import List
from xml.etree import ElementTree

from monk_lessons import Cell
from monk_runs import CANT, HUNG, LATE, OK, WRONG
from monk_told import Told, counted


def write_junit(path: str, words: List[str], cells: List[Cell], told: Told) -> None:
    """A cell that went wrong is a failure, with the lesson; one that couldn't be tried is skipped."""
    suite = ElementTree.Element("testsuite", name=f"monk-try {shlex.join(words)}", tests=str(len(cells)))
    failures = skipped = 0
    for cell in cells:
        case = ElementTree.SubElement(suite, "testcase", classname=cell.row or cell.kind, name=cell.wish)
        if cell.count(WRONG) + cell.count(HUNG) + cell.count(LATE):
            again = told.wrong.again if told.wrong else ""
            failure = ElementTree.SubElement(case, "failure", message=counted(cell), type=told.lesson.name)
            failure.text = f"{told.lesson.text}\n{again}"
            failures += 1
        elif cell.count(CANT) and not cell.count(OK):
            ElementTree.SubElement(case, "skipped", message=counted(cell))
            skipped += 1
    suite.set("failures", str(failures))
    suite.set("skipped", str(skipped))
    ElementTree.ElementTree(suite).write(path, encoding="unicode", xml_declaration=True)

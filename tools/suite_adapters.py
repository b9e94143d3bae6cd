"""The report of a suite in forms that other tools read: TAP, JUnit's XML, and SARIF (suite_sarif.py). For tools/suite. Nothing is decided here:
which case passed, how it ended and by which clause stands in the report and in the list.
"""
import os
import re
import xml.etree.ElementTree as xml
from typing import Optional

import suite_sarif
from suite_lists import Case, text_of

FORMS = ("tap", "junit", "sarif")
ENDS = ("exit", "undefined", "indeterminate", "undecided", "placement", "storage", "turns", "abort", "sides", "refused", "script", "fault", "words")
# What XML 1.0 has no character for.
NO_XML = re.compile("[^\t\n\r\x20-\ud7ff\ue000-\ufffd\U00010000-\U0010ffff]")
Cases = Optional["list[Case]"]


def why_none(lines: "list[bytes]") -> str:
    """Why there is no report of a suite, by the line that stands in its place."""
    return text_of(lines[0]) if lines else "no report"


def end_in(report: bytes) -> str:
    """The last line of a report that tells an end."""
    lines = [text_of(line) for line in report.split(b"\n")]
    ends = [line for line in lines if line.split(" ")[0] in ENDS]
    return ends[-1] if ends else ""


# ---- TAP


def tap(name: str, cases: Cases, lines: "list[bytes]") -> str:
    """A report as TAP 13 has it."""
    if cases is None:
        return f"TAP version 13\nBail out! {why_none(lines)}\n"
    said = ["TAP version 13", f"1..{len(cases)}"]
    for number, case in enumerate(cases, 1):
        source = text_of(case.source).replace("\\", "\\\\").replace("#", "\\#")
        said.append(f"{'ok' if case.passed else 'not ok'} {number} - {source}")
        if not case.passed:
            said.append(f"# {case.why()}")
    return "\n".join(said) + "\n"


# ---- JUnit


def plain(text: str) -> str:
    """A text of characters that XML has."""
    return NO_XML.sub("\ufffd", text)


def junit(name: str, cases: Cases, lines: "list[bytes]") -> str:
    """A report as JUnit's XML has it."""
    failed = sum(not case.passed for case in cases or [])
    counts = {"tests": str(len(cases) if cases is not None else 1), "failures": str(failed), "errors": str(int(cases is None)), "skipped": "0"}
    top = xml.Element("testsuites", counts)
    suite = xml.SubElement(top, "testsuite", {"name": plain(name), **counts})
    if cases is None:
        one = xml.SubElement(suite, "testcase", {"classname": plain(name), "name": "list"})
        xml.SubElement(one, "error", {"type": "refused", "message": plain(why_none(lines))})
    for number, case in enumerate(cases or [], 1):
        words = {"classname": plain(name), "name": plain(f"{number} {text_of(case.source)}"), "file": plain(text_of(case.source))}
        one = xml.SubElement(suite, "testcase", words)
        if not case.passed:
            kind = "line" if case.differs_at is None else "output"
            xml.SubElement(one, "failure", {"type": kind, "message": plain(case.why())})
    xml.indent(top)
    return '<?xml version="1.0" encoding="UTF-8"?>\n' + xml.tostring(top, encoding="unicode") + "\n"


# ---- files


def can_be_written(name: str) -> bool:
    """Whether a file can be written, as far as can be told before: nobody who reads a pipe is to take this for the end."""
    if os.path.exists(name) and not os.path.isfile(name) and not os.path.isdir(name):
        return True
    try:
        with open(name, "ab"):
            return True
    except (OSError, ValueError):
        return False


def write(name: str, text: str) -> None:
    """Writes one form."""
    with open(name, "w", encoding="utf-8", errors="replace", newline="\n") as file:
        file.write(text)


def make(form: str, name: str, cases: Cases, lines: "list[bytes]", asked: "suite_sarif.Asked") -> str:
    """A report in one of the forms."""
    if form == "sarif":
        return suite_sarif.sarif(asked, cases, why_none(lines))
    return (tap if form == "tap" else junit)(name, cases, lines)

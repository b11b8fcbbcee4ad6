"""Verdicts as JUnit XML, which nightly jobs read: a test case for each requirement. Tested, not proved."""

from __future__ import annotations

import xml.etree.ElementTree as xml

import pandas as pd

from ..common.visible import visible
from .judging import MET, NOT_DECIDED
from .shown import sentence


def text(table: pd.DataFrame, name: str) -> bytes:
    """The table of `verdicts` as a suite of this name. What is not met or impossible is a failure, and what is not decided is an error."""
    suite = xml.Element("testsuite", name=visible(name), tests=str(len(table)))
    verdicts = table["verdict"]
    suite.set("failures", str(int((~verdicts.isin([MET, NOT_DECIDED])).sum())))
    suite.set("errors", str(int((verdicts == NOT_DECIDED).sum())))
    for row in table.to_dict("records"):
        case = xml.SubElement(suite, "testcase", name=visible(row["requirement"]), classname=visible(f"{name}.{row['when']}"))
        told = visible(sentence(row))
        if row["verdict"] != MET:
            found = xml.SubElement(case, "error" if row["verdict"] == NOT_DECIDED else "failure", type=row["verdict"], message=told)
            found.text = visible(row["helps"])
        else:
            xml.SubElement(case, "system-out").text = told
    xml.indent(suite)
    written: bytes = xml.tostring(suite, encoding="utf-8", xml_declaration=True) + b"\n"
    return written

"""Findings in worked sections."""
from cases.section_lint import TABLE
from lib.worked import cases_of


def cases():
    return cases_of(TABLE)

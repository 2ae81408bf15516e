"""Addresses of source lines in worked sections."""
from cases.section_lines import TABLE
from lib.worked import cases_of


def cases():
    return cases_of(TABLE)

"""Locations of addresses in worked sections."""
from cases.section_addr import TABLE
from lib.worked import cases_of


def cases():
    return cases_of(TABLE)

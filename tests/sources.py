"""Source files of worked sections."""
from cases.section_sources import TABLE
from lib.worked import cases_of


def cases():
    return cases_of(TABLE)

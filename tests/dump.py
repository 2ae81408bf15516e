"""What `dump` prints of worked sections."""
from cases.section_dump import TABLE
from lib.worked import cases_of


def cases():
    return cases_of(TABLE)

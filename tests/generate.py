"""Gathers the makers of files and of arguments, all driven by the caller's seeded rng."""

from additions import (
    FAULTS_OF_APPEND, FAULTS_OF_BEGIN, addition, beginning, faulty_addition, faulty_beginning)
from faults import FAULTS, faulty_file
from foreign import foreign_file, indexed_file, mixed_file
from spoiling import spoil

__all__ = [
    "FAULTS", "FAULTS_OF_APPEND", "FAULTS_OF_BEGIN", "addition", "beginning",
    "faulty_addition", "faulty_beginning", "faulty_file", "foreign_file", "indexed_file", "mixed_file", "spoil"]

"""The refusals, as docs/REFUSALS.md has them."""
from dataclasses import dataclass
from pathlib import Path
from typing import Dict, List, Optional

from reading.lines import Refusal

PAGE = Path(__file__).resolve().parent.parent.parent / "docs/REFUSALS.md"
COLUMNS = ["Refusal", "Cause", "What stands after", "What to do", "Text"]


class BadTable(Exception):
    """docs/REFUSALS.md can't be read, or its table is another."""


@dataclass(frozen=True)
class Meaning:
    """What a refusal means, what it leaves, and what to do."""

    cause: str
    stands: str
    to_do: str
    example: str


def cells_of(line: str) -> List[str]:
    return [cell.strip() for cell in line.strip().strip("|").split("|")]


def read_meanings(page: Path = PAGE) -> Dict[str, Meaning]:
    """Returns the meaning of each refusal, by its number and name."""
    try:
        lines = page.read_text(encoding="utf-8").splitlines()
    except (OSError, ValueError) as error:
        raise BadTable(f"{page}: {error}") from error
    rows = [cells_of(line) for line in lines if line.startswith("|")]
    if not rows or rows[0] != COLUMNS:
        raise BadTable(f"{page}: the columns of its table are not {', '.join(COLUMNS)}")
    refusals = [row for row in rows[2:] if len(row) == len(COLUMNS)]
    return {row[0]: Meaning(row[1], row[2], row[3], row[4].strip("`")) for row in refusals}


def name_of(meanings: Dict[str, Meaning], number: str) -> Optional[str]:
    """Returns the refusal of this number, as E12, with its name, or None where there is none."""
    return next((name for name in meanings if name.split()[0] == number), None)


def meaning_of(meanings: Dict[str, Meaning], refusal: Refusal) -> Optional[Meaning]:
    """Returns what the refusal means, or None where no refusal has its number, name and form."""
    meaning = meanings.get(f"E{refusal.number} {refusal.name}")
    if meaning is None or len(meaning.example.split()) != len(refusal.text.split()):
        return None
    return meaning

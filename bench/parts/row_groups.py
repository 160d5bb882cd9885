"""Groups the rows of a batch file by record, and the rows of a record by application and rank."""
from typing import Protocol, Sequence, TypeVar


class Placed(Protocol):
    """The columns of a row that these functions read."""

    @property
    def record(self) -> str: ...

    @property
    def aid(self) -> bytes: ...

    @property
    def rank(self) -> int: ...


Row = TypeVar("Row", bound=Placed)


def by_record(rows: Sequence[Row]) -> dict[str, list[Row]]:
    """Returns the rows of each record. Records are in the order of their first rows."""
    made: dict[str, list[Row]] = {}
    for row in rows:
        made.setdefault(row.record, []).append(row)
    return made


def segments_of(rows: Sequence[Row]) -> dict[bytes, dict[int, list[Row]]]:
    """Returns the rows of each application of a record, grouped by rank. Applications are in the
    order of their first rows, and ranks ascend."""
    made: dict[bytes, dict[int, list[Row]]] = {}
    for row in rows:
        made.setdefault(row.aid, {}).setdefault(row.rank, []).append(row)
    return {aid: dict(sorted(ranks.items())) for aid, ranks in made.items()}

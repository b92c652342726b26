"""The ladder of a line, live: it gives a row once no later byte can change it."""
from typing import Iterator, List

from lislink.capture import Capture, Line
from ..diagnosis.ring import ENQ, Piece
from ..field.ladder import Ladder, Row

#: How many rows are held that were given: the ones that a reply can be about.
HELD = 64


class LiveLadder(Ladder):
    """A ladder that grows. It begins at the first ENQ: what is before it belongs to a session that wasn't seen."""

    def __init__(self, frame_limit: int) -> None:
        super().__init__(Capture(2, [], []), frame_limit=frame_limit)
        self._count, self._given, self._connection, self._has_begun = 0, 0, 0, False
        self._begin()

    def grow(self, pieces: List[Piece]) -> Iterator[Row]:
        """The rows that are complete with these pieces, the next ones of the line."""
        for piece in pieces:
            if piece.connection != self._connection and self._has_begun:
                self._take(self._count, Line("R"), piece.at)
                self.close()
                self._carry = b""
                self._begin()
            self._connection, data = piece.connection, piece.data
            if not self._has_begun:
                place = data.find(ENQ) if piece.mark == ">" else -1
                if place < 0:
                    continue
                self._has_begun, data = True, data[place:]
            self._count += 1
            self._take(self._count, Line(piece.mark, data), piece.at)
        over = self._begun[2] if self._carry else len(self.rows)
        rows, self._given = self.rows[self._given : over], max(self._given, over)
        yield from rows
        self._forget()

    def _forget(self) -> None:
        """Drops what was shown, so that watching a line for a day takes no more memory."""
        line, since, place = self._begun
        drop = max(0, self._given - HELD)
        del self.rows[:drop]
        self._given -= drop
        self._begun = (line, since, max(0, place - drop))
        self._sent = b""
        self.texts.clear()
        self.differences.clear()
        self.dropped.clear()

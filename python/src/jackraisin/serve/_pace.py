"""How often what takes long is asked while the cube changes."""
from __future__ import annotations

import time
from typing import Dict, Iterable, List, Optional, Tuple

from ._query import ANY_FIELD, Question

# (an answer of more bytes is a long one; behind it others rest so many times the seconds that it took)
LONG_ANSWER, TIMES_OF_REST = 2**17, 3.0
# (of how many questions it is known how long their answers are)
MOST_KNOWN = 10_000


class Pace:
    """Lets long answers, as that to `print`, take a quarter of the time at most while the cube changes, so that changes are taken
    between: whoever asks for one meanwhile waits for the next one, and all are given that. Short ones go through."""

    def __init__(self) -> None:
        self._sizes: Dict[Question, int] = {}
        self._state: object = None
        self._until = 0.0

    def is_long(self, question: Question) -> bool:
        """Whether an answer is long, as it was the last time, or as it may be where the question has any coordinate."""
        size = self._sizes.get(question)
        return question[0] == "print" or ANY_FIELD in question[1:] if size is None else size > LONG_ANSWER

    def due(self, questions: Iterable[Question], state: object) -> Tuple[List[Question], Optional[float]]:
        """Of the questions that wait, in their order, those that may be asked now in a state: all short ones, and one long one
        where its time has come. Where another is left, also in how many seconds its time comes."""
        asked = list(questions)
        long = [it for it in asked if self.is_long(it)]
        rest = max(0.0, self._until - time.monotonic()) if state != self._state else 0.0
        left_out = set(long[1:] if rest == 0 else long)
        return [it for it in asked if it not in left_out], rest if left_out else None

    def note(self, question: Question, size: int, seconds: float, state: object) -> None:
        """Takes note of an answer, which took so many seconds and is of a state."""
        if len(self._sizes) >= MOST_KNOWN:
            self._sizes.clear()
        self._sizes[question] = size
        if size > LONG_ANSWER:
            self._state, self._until = state, time.monotonic() + TIMES_OF_REST * seconds

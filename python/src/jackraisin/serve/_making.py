"""The making of changes: those of all bodies that wait go in with one commit."""
from __future__ import annotations

from typing import List, Mapping, NamedTuple, Optional, Sequence, Tuple, Union

from ._bodies import Record
from ._errors import OtherBody
from ._places import Place, Refused, refused_at
from ._stored import StoredSession


class Body(NamedTuple):
    """The changes of a request, with the SHA-256 of their bytes and the key that it came under, if it has one."""

    records: Sequence[Record]
    digest: bytes = b""
    key: Optional[str] = None


class Made(NamedTuple):
    """What became of a body: how many changes were taken, which were refused, and the state behind them."""

    taken: int
    refused: List[Refused]
    state: int


class Plan(NamedTuple):
    """Where the changes of a body stand once they are made, and those that are still to be sent."""

    places: List[Place]
    left: Sequence[Record]


def make_all(session: StoredSession, bodies: Sequence[Body]) -> List[Union[Made, OtherBody]]:
    """Makes the changes of all bodies, and says what became of each. Keys are noted, and the notes are certain, before a change is
    sent."""
    has_keys = any(it.key is not None for it in bodies)
    if has_keys:
        session.keys.begin()
    plans = [plan_of(session, it) for it in bodies]
    if has_keys:
        session.keys.commit()
    session.make([record for it in plans if isinstance(it, Plan) for record in it.left])
    codes = session.codes_at(place for it in plans if isinstance(it, Plan) for place in it.places)
    return [made_of(session, body, it, codes) if isinstance(it, Plan) else it for body, it in zip(bodies, plans)]


def plan_of(session: StoredSession, body: Body) -> Union[Plan, OtherBody]:
    """What is to be done with a body: all of it, the rest of one that a kill cut short, or nothing where it was made."""
    if body.key is None:
        return Plan([session.place(body.records)], body.records)
    note = session.keys.of(body.key)
    if note is not None and note.digest != body.digest:
        return OtherBody(f"another body came under the key {body.key}")
    begin = note.length if note is not None else 0
    places = note.places if note is not None else []
    if note is not None and begin == len(body.records):
        return Plan(places, [])
    place = session.place(body.records, begin)
    session.keys.add(body.key, body.digest, place, note is None)
    return Plan([*places, place], body.records[begin:])


def made_of(session: StoredSession, body: Body, plan: Plan, codes: Mapping[Tuple[int, int], int]) -> Made:
    refused = [it for place in plan.places for it in refused_at(place, body.records, codes)]
    return Made(len(body.records) - len(refused), refused, session.number)

"""The cube that is served, from whatever keeps it: each answer is made once for all who ask."""
from __future__ import annotations

import abc
import asyncio
import gzip
import time
from collections import OrderedDict
from concurrent.futures import ThreadPoolExecutor
from typing import Any, Callable, Dict, Iterator, Mapping, Optional, Tuple, TypeVar, Union

from .._errors import Ended, Failure
from .._schema import Schema
from ._errors import CantServe
from ._forms import Form, text_in_form
from ._pace import Pace
from ._query import OWN_WORDS, Question, View
from ._view import text_in_view, whole_question

T = TypeVar("T")
# (a number of changes, or what else tells a state from others)
State = Union[int, str]

# (so many bytes of a state's answers are kept)
MOST_BYTES = 64 * 2**20
# (so many questions are asked in a turn, so that changes come between)
MOST_AT_ONCE = 16
# (what is made of a text that is longer is made in a thread of its own)
LONG = 2**15
# (of gzip: what is beyond takes long and saves little)
LEVEL = 5


class Answer:
    """The answer to a question in a state. Whatever is made of it, as a form or what gzip packs, is made once."""

    def __init__(self, state: State, text: str, schema: Schema, is_escaped: bool = False) -> None:
        self.state, self.text = state, text
        self._schema, self._is_escaped = schema, is_escaped
        self._made: Dict[str, Any] = {}
        self._making: Dict[str, "asyncio.Task[Any]"] = {}

    async def form(self, form: Form) -> bytes:
        return await self.once(form.name, lambda: text_in_form(self.text, form, self._schema, self._is_escaped).encode("utf-8"))

    async def packed(self, name: str, body: bytes) -> bytes:
        """What was made under a name, as gzip packs it."""
        return await self.once(f"{name} packed", lambda: gzip.compress(body, LEVEL, mtime=0))

    async def once(self, name: str, make: Callable[[], T]) -> T:
        """What is made under a name by the first who asks: at once, or where the text is long beside what else there is to do."""
        if name not in self._made and len(self.text) < LONG:
            self._made[name] = make()
        if name not in self._made:
            if name not in self._making:
                self._making[name] = asyncio.ensure_future(beside(len(self.text), make))
            self._made[name] = await asyncio.shield(self._making[name])
        found: T = self._made[name]
        return found


Answered = Union[Answer, Failure, CantServe]


class ServedCube(abc.ABC):
    """What answers questions of one cube, in a thread of its own, over which many ask. A source says what keeps the cube: a
    session over a store, or a follower of a table. The loop goes on from `run` until `end`."""

    # (what the page calls it and what metrics are said to be of; whether a text that begins with a backslash has one more in what is
    # asked and answered; and the questions that it takes)
    name, subject, is_escaped = "cube.csv", "the cube", False
    questions = tuple(OWN_WORDS)

    def __init__(self, schema: Schema) -> None:
        self.schema = schema
        self._thread = ThreadPoolExecutor(1, "datacube questions")
        # (those that wait, and those that are being answered)
        self._questions: Dict[Question, "asyncio.Future[Answered]"] = {}
        self._asked: Dict[Question, "asyncio.Future[Answered]"] = {}
        self._answers: "OrderedDict[Question, Answer]" = OrderedDict()
        self._views: Dict[Question, "asyncio.Task[Answer]"] = {}
        self._kept, self._pace = 0, Pace()
        self._timer: Optional[asyncio.TimerHandle] = None
        self._wake = asyncio.Event()
        self._moved: "asyncio.Future[None]" = asyncio.get_running_loop().create_future()
        self._is_ending = False

    # What a source says.

    @property
    @abc.abstractmethod
    def state(self) -> Optional[State]:
        """The state that questions see now; None where nothing is answered."""

    @abc.abstractmethod
    def check(self) -> None:
        """Refuses, by `CantServe`, what nobody would answer."""

    def check_running(self) -> None:
        """The same where that won't change any more."""

    def news(self) -> Optional[Dict[str, object]]:
        """What is told of the cube as it is, `state` first; None before there is any."""
        return None if self.state is None else {"state": self.state}

    def headers(self) -> Mapping[str, str]:
        """What replies say of the cube beside the state."""
        return {}

    @abc.abstractmethod
    def families(self, left_out: int) -> Iterator[Any]:
        """The source's own metrics; so many rows of the slice have none."""

    @abc.abstractmethod
    def _text(self, question: Question) -> Tuple[State, str]:
        """The text that answers a question, in the cube's thread, with its state. One that is refused raises `Failure`, and one that
        nothing answers now `CantServe`; whatever else is raised ends the serving."""

    # What others call.

    async def ask(self, question: Question) -> Answer:
        """The answer to a question in the state that is there, or in a later one; a refused question raises `Failure`."""
        found = self._known(question)
        if found is not None:
            return found
        self.check()
        if question not in self._questions:
            self._questions[question] = asyncio.get_running_loop().create_future()
            self._wake.set()
        answer = await asyncio.shield(self._questions[question])
        if isinstance(answer, Failure):
            raise Failure(answer.line, answer.meaning, answer.status)
        if isinstance(answer, CantServe):
            raise CantServe(str(answer))
        return answer

    async def ask_in_view(self, question: Question, view: View) -> Answer:
        """The same in a view, which is made once in a state too."""
        key = ("view", repr(view), *question)
        found = self._known(key)
        if found is not None:
            return found
        if key not in self._views:
            self._views[key] = asyncio.ensure_future(self._seen(key, question, view))
            self._views[key].add_done_callback(lambda _: self._views.pop(key))
        return await asyncio.shield(self._views[key])

    async def moved(self) -> None:
        """Returns when there is other news."""
        await asyncio.shield(self._moved)

    def end(self) -> None:
        """Lets `run` end, once what waits is done."""
        self._is_ending = True
        self._wake.set()

    # What the loop does.

    async def _serve(self) -> None:
        """Does what waits, turn by turn, until the end."""
        try:
            while self._has_work() or not self._is_ending:
                await self._wake.wait()
                self._wake.clear()
                await self._turn()
                if self._is_ending:
                    self._wake.set()
        except Exception as why:
            self._give_up(CantServe(f"the session ended: {why}"))
            raise

    def _has_work(self) -> bool:
        return bool(self._questions)

    async def _turn(self) -> None:
        await self._answer()

    async def _answer(self) -> None:
        """Answers the questions that wait and whose time has come."""
        for question in [it for it in self._questions if self._known(it)]:
            self._questions.pop(question).set_result(self._answers[question])
        asked, seconds = self._pace.due(self._questions, self.state)
        if self._is_ending:
            asked, seconds = list(self._questions), None
        if seconds is not None:
            self._wake_in(seconds)
        if len(asked) > MOST_AT_ONCE:
            del asked[MOST_AT_ONCE:]
            self._wake.set()
        if not asked:
            return
        # (who asks from now on may know of a later state, and isn't told of this one)
        self._asked = {it: self._questions.pop(it) for it in asked}
        for question, answer in zip(asked, await self._in_thread(lambda: [self._answered(it) for it in asked])):
            if isinstance(answer, Answer):
                self._keep(question, answer)
            self._asked.pop(question).set_result(answer)

    def _answered(self, question: Question) -> Answered:
        start = time.monotonic()
        try:
            state, text = self._text(question)
        except Ended:
            raise
        except (Failure, CantServe) as why:
            return why
        self._pace.note(question, len(text), time.monotonic() - start, state)
        return Answer(state, text, self.schema, self.is_escaped)

    def _wake_in(self, seconds: float) -> None:
        """Wakes the loop after so many seconds, if nothing does before."""
        if self._timer is not None:
            self._timer.cancel()
        self._timer = asyncio.get_running_loop().call_later(seconds, self._wake.set)

    def _known(self, question: Question) -> Optional[Answer]:
        """The answer of the state that is there, where it was made."""
        found = self._answers.get(question)
        if found is None or found.state != self.state:
            return None
        self._answers.move_to_end(question)
        return found

    def _keep(self, question: Question, answer: Answer) -> None:
        """Keeps an answer for those who ask the same in its state, and of all the latest ones; those of another state go."""
        if self._answers and next(iter(self._answers.values())).state != answer.state:
            self._forget()
        self._answers[question] = answer
        self._kept += len(answer.text)
        while self._kept > MOST_BYTES and len(self._answers) > 1:
            self._kept -= len(self._answers.popitem(last=False)[1].text)

    def _forget(self) -> None:
        self._answers.clear()
        self._kept = 0

    async def _seen(self, key: Question, question: Question, view: View) -> Answer:
        """An answer in a view, made of one answer, so that all is of one state."""
        names = self.schema.dimensions
        # (what is refused is refused without the view too)
        await self.ask(question)
        found = await self.ask(whole_question(question, names))
        text = await beside(len(found.text), lambda: text_in_view(found.text, question, names, view))
        answer = Answer(found.state, text, self.schema, self.is_escaped)
        if answer.state == self.state:
            self._keep(key, answer)
        return answer

    def _move(self) -> None:
        """Tells those who wait for it that there is other news."""
        self._moved.set_result(None)
        self._moved = asyncio.get_running_loop().create_future()

    def _give_up(self, why: CantServe) -> None:
        """Tells all who wait that the source is over."""
        for question in [*self._questions.values(), *self._asked.values()]:
            question.set_result(why)
        self._questions, self._asked = {}, {}
        self._forget()
        self._move()

    async def _in_thread(self, work: Callable[[], T]) -> T:
        return await asyncio.get_running_loop().run_in_executor(self._thread, work)

    def _end_thread(self) -> None:
        if self._timer is not None:
            self._timer.cancel()
        self._thread.shutdown()


async def beside(size: int, work: Callable[[], T]) -> T:
    """Does some work at once, or where it takes its time beside what else there is to do."""
    if size < LONG:
        return work()
    return await asyncio.get_running_loop().run_in_executor(None, work)

"""A session over a cube that is kept right, change by change."""
from __future__ import annotations

import contextlib
import csv
import io
import shutil
import subprocess
import tempfile
import threading
from types import TracebackType
from typing import IO, Callable, Iterable, Iterator, List, Optional, Sequence, Tuple, Type, TypeVar, Union

from ._ask import Given, Shard, Size, options_of
from ._cells import Named, text_of
from ._changes import SOURCES, Measure, Numbers, Texts, change_record
from ._cube import Refusal, refusals_of
from ._errors import Ended, Failure, ProgramNotFound, Unsayable
from ._program import DONE, Limits, Path, Paths, line_of, meaning_of, paths_of, words_of
from ._questions import Questions
from ._records import GREATEST
from ._schema import schema_of

T = TypeVar("T")


class Live(Questions):
    """A running `datacube live`: a cube over feeds (feed s is source s) and the changes that come after.

    Any thread may make changes and ask. A change is sent whole, in the order in which the threads come; a question is
    answered over all changes before it, and those that come meanwhile wait in the pipe. With a shard, the J-th of N as (J, N),
    changes of the others are left alone. A record of a feed may have `max_record` bytes. With a store, the path of a SQLite file, each change is kept there and certain
    before an answer shows it, and a session over the same schema, feeds and store goes on where the last one ended; a wary
    one supposes nothing of what a torn write leaves.

    What no feed can say raises `Unsayable`, and nothing is sent; a change that the facts refuse, as the insert of an id that
    is present, is noted in `refusals`. An answer, the first one of the opening too, the handing over of changes, or the end,
    that takes more seconds than `timeout` ends the session, which raises `TimedOut`; one that wants more bytes of memory than
    `max_memory` ends by a code. Where the process ends by itself, every call from then on raises `Ended` with its status and
    last line."""

    def __init__(
        self,
        schema: Given,
        feeds: Paths = (),
        *,
        threads: Optional[int] = None,
        shard: Optional[Shard] = None,
        max_record: Optional[Size] = None,
        store: Optional[Path] = None,
        wary: bool = False,
        timeout: Optional[float] = None,
        max_memory: Optional[int] = None,
    ) -> None:
        self.schema = schema_of(schema)
        self._limits, self._is_late = Limits(timeout, max_memory), False
        self.status: Optional[int] = None
        self._line = ""
        # (where a thread holds both, it took them in this order)
        self._asking, self._writing = threading.Lock(), threading.RLock()
        self._told = tempfile.TemporaryFile()
        with self.schema.file() as path:
            options = options_of(threads, shard, max_record, store, wary)
            self._process = self._begun(words_of("live", options, [path, *paths_of(feeds)]))
            self._records = csv.writer(self._input)
            self._ready()

    def _begun(self, words: Sequence[Union[str, bytes]]) -> "subprocess.Popen[bytes]":
        pipe = subprocess.PIPE
        try:
            # (in a session of its own, so that Ctrl-C in a terminal is for Python alone)
            process = subprocess.Popen(self._limits.words(words), stdin=pipe, stdout=pipe, stderr=self._told, start_new_session=True)
        except OSError as why:
            raise ProgramNotFound(f"the program can't be run: {why}") from None
        assert process.stdin is not None and process.stdout is not None
        self._input = io.TextIOWrapper(process.stdin, encoding="utf-8", newline="")
        self._output = process.stdout
        return process

    def _ready(self) -> None:
        """Waits until the feeds are read; what is wrong with them or with the schema is told by now."""
        try:
            self.refusals(SOURCES, GREATEST)
        except BaseException:
            self._kill()
            raise

    def __enter__(self) -> "Live":
        return self

    def __exit__(self, kind: Optional[Type[BaseException]], why: Optional[BaseException], at: Optional[TracebackType]) -> None:
        try:
            self.close()
        except Ended:
            if kind is None:
                raise

    def insert(self, source: int, id: str, dims: Named[Optional[str]], measures: Named[Measure]) -> None:
        """Puts a fact under an id that is absent in its source."""
        self._send([change_record(self.schema, source, "I", id, dims, measures)], False)

    def insert_many(self, source: int, facts: Iterable[Tuple[str, Named[Optional[str]], Named[Measure]]]) -> int:
        """Puts many facts, each with its id, dimensions and measures, one behind the other. Where one can't be said, none is
        sent. Gives how many they are."""
        records = [change_record(self.schema, source, "I", *fact) for fact in facts]
        self._send(records, False)
        return len(records)

    def update(self, source: int, id: str, dims: Texts, measures: Numbers) -> None:
        """Puts a fact in place of the one under an id that is present. KEEP, and what a mapping doesn't name, keeps the
        value that it has, where the schema has version 2."""
        self._send([change_record(self.schema, source, "U", id, dims, measures)], False)

    def put(self, source: int, id: str, dims: Named[Optional[str]], measures: Named[Measure]) -> None:
        """Puts a fact under an id, whether or not it is present, where the schema has `feed`."""
        self._send([change_record(self.schema, source, "P", id, dims, measures)], False)

    def delete(self, source: int, id: str) -> None:
        """Takes the fact of an id that is present away."""
        self._send([change_record(self.schema, source, "D", id)], False)

    def remove(self, source: int, id: str) -> None:
        """Takes the fact of an id away, if it is present, where the schema has `feed`."""
        self._send([change_record(self.schema, source, "R", id)], False)

    def refusals(self, source: Optional[int] = None, after: int = 0) -> List[Refusal]:
        """The refused lines and changes of all sources, or those of one after one of its records."""
        return refusals_of(self.ask("refusals") if source is None else self.ask("refusals", str(source), str(after)))

    def sync(self) -> None:
        """Returns once every change before it is taken, and certain where there is a store."""
        self.ask("sync")

    def ask(self, question: str, *fields: str) -> str:
        """The text that answers a question of the session; one that is refused raises `Failure` with its code."""
        return self.ask_at(lambda: None, question, *fields)[1]

    def ask_at(self, at: Callable[[], T], question: str, *fields: str) -> Tuple[T, str]:
        """The same, and what a call gives that is made when all changes before the question are sent, and none behind it is. Where
        the call raises something, nothing is asked."""
        record = [text_of(it, "a field of a question") for it in (question, *fields)]
        if question[:1].isdigit():
            raise Unsayable(f"{question!r} begins a change, not a question")
        is_asked = False
        with self._asking:
            try:
                with self._watched():
                    with self._writing:
                        found = at()
                        is_asked = True
                        self._send([record], True)
                    return found, self._read_answer()
            except Failure:
                raise
            except BaseException:
                if is_asked:
                    # (the answer was begun and not read to its end)
                    self._kill()
                raise

    def is_answering(self) -> bool:
        """Whether a question is under way, for whose answer another one waits."""
        return self._asking.locked()

    def _read_answer(self) -> str:
        """The answer to the question that was sent."""
        first = self._output.readline()
        size = int(first[3:]) if first.startswith(b"ok ") else 0
        text = self._output.read(size)
        if not first.endswith(b"\n") or len(text) < size:
            raise self._end()
        if not first.startswith(b"ok "):
            code = first.decode("utf-8", "replace").strip()
            raise Failure(code, meaning_of(code))
        return text.decode("utf-8")

    @contextlib.contextmanager
    def held(self) -> Iterator[None]:
        """Nothing is sent by another thread for as long as it is entered, neither a change nor a question."""
        with self._writing:
            yield

    def send(self, changes: IO[str]) -> None:
        """Sends changes that are written as the records of a session, from a file's place to its end, and hands them over. They go
        out as they are: the caller answers for what they say, and that they hold no question."""
        self._write(lambda: shutil.copyfileobj(changes, self._input), True)

    def flush(self) -> None:
        """Hands the changes until now over to the program, which any question does too."""
        self._send([], True)

    def _send(self, records: Sequence[Sequence[str]], at_once: bool) -> None:
        self._write(lambda: self._records.writerows(records), at_once)

    def _write(self, write: Callable[[], None], at_once: bool) -> None:
        with self._writing:
            if self.status is not None:
                raise self._end()
            try:
                with self._watched():
                    write()
                    if at_once:
                        self._input.flush()
            except BrokenPipeError:
                raise self._end() from None
            except BaseException:
                # (a record may have gone out in part)
                self._kill()
                raise

    def close(self) -> int:
        """Ends the session, and gives its status: 4 where a line or a change was refused, else 0; any other is `Ended`."""
        with self._asking:
            end = self._end()
        if self.status not in DONE:
            raise end
        return self.status or 0

    @contextlib.contextmanager
    def _watched(self) -> Iterator[None]:
        """Kills the process where what is done takes longer than the timeout."""
        if self._limits.timeout is None:
            yield
            return
        watch = threading.Timer(self._limits.timeout, self._too_late)
        watch.daemon = True
        watch.start()
        try:
            yield
        finally:
            watch.cancel()

    def _too_late(self) -> None:
        self._is_late = True
        self._process.kill()

    def kill(self) -> None:
        """Ends the session at once. What was sent behind the last answer may be lost."""
        self._kill()

    def _kill(self) -> None:
        self._process.kill()
        self._end()

    def _end(self) -> Ended:
        """Ends the session, where it isn't over, and says how it ended."""
        with self._writing:
            if self.status is None:
                with self._watched():
                    with contextlib.suppress(BrokenPipeError):
                        self._input.close()
                    status = self._process.wait()
                self.status = status
                self._output.close()
                self._told.seek(0)
                self._line = line_of(self._told.read())
                self._told.close()
        if self._is_late and self.status not in DONE:
            return self._limits.passed()
        return Ended(self._line, meaning_of(self._line), self.status)

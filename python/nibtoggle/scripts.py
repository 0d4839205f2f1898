"""Scripts that assert: a text is run on a bench, and what it expects is looked at on the way. The grammar, what decides each expectation and
the words of one that failed are the proved library's own, and nib's."""
from __future__ import annotations

from typing import TYPE_CHECKING, List, NamedTuple, Optional, Tuple, Type, Union

from ._library import Library
from .text import Expectation, steps_of

if TYPE_CHECKING:
    from .bench import Bench

#: A reply's first byte, where its second is a byte that a data out gave.
_GAVE = 1


class Failure(NamedTuple):
    """An expectation that failed: where it stands, counted from 1, and what was expected and came instead."""

    name: str
    line: int
    place: int
    why: str

    def __str__(self) -> str:
        return "%s, line %d, place %d: %s" % (self.name, self.line, self.place, self.why)


class Outcome(NamedTuple):
    """How a script went."""

    events: int
    expectations: int
    failures: Tuple[Failure, ...]

    @property
    def held(self) -> bool:
        return not self.failures


class ExpectationFailed(AssertionError):
    """A script whose expectations did not all hold; `outcome` has each that failed."""

    def __init__(self, outcome: Outcome) -> None:
        super().__init__("\n".join(str(failure) for failure in outcome.failures))
        self.outcome = outcome

    def __reduce__(self) -> Tuple[Type["ExpectationFailed"], Tuple[Outcome]]:
        return type(self), (self.outcome,)


class _Since:
    """What the events since the last expectation were answered."""

    def __init__(self, bench: "Bench", said: Library) -> None:
        self._bench, self._said = bench, said
        self._state, self._given, self._half = 0, bytearray(), b""
        self.events = 0

    def run(self, records: bytes, last: bool = False) -> None:
        """A stretch of the trace. Half a record is no event before its other half has come, or the text is at its end."""
        records = self._half + records
        whole = len(records) if last else len(records) // 2 * 2
        self._half = records[whole:]
        replies = self._bench.trace(records[:whole]).raw if whole else b""
        for at in range(0, len(replies), 2):
            self.events += 1
            self._state = self._said.expect_next(self._state, self.events, replies[at], replies[at + 1])
            if replies[at] == _GAVE:
                self._given.append(replies[at + 1])

    def failed(self, expected: Expectation) -> Optional[str]:
        """The words of an expectation that fails; None where it holds. The next one speaks of what comes after it."""
        state, given, said = self._state, bytes(self._given), self._said
        self._state, self._given = 0, bytearray()
        if expected.wanted is not None:
            lists = (given, len(given), expected.wanted, len(expected.wanted))
            return None if said.expect_bytes(state, *lists) else said.words(said.say_not_bytes, state, *lists)
        if expected.refusal is not None:
            if said.expect_refusal(state, expected.refusal):
                return None
            return said.words(said.say_not_refusal, state, self.events, expected.refusal)
        return None if said.expect_ok(state) else said.words(said.say_not_ok, state)


def run(bench: "Bench", text: Union[str, bytes], name: str = "text", library: Optional[Library] = None) -> Outcome:
    """Runs a text on a bench, whole jobs' words too, and tells which of its expectations failed. A bad word raises BadWord, and then no
    event has been run."""
    said = library if library is not None else Library.found()
    steps = list(steps_of(text, name, said, bench.part))
    since, expectations = _Since(bench, said), 0
    failures: List[Failure] = []
    for step in steps:
        if isinstance(step, bytes):
            since.run(step)
            continue
        expectations += 1
        why = since.failed(step)
        if why is not None:
            failures.append(Failure(name, step.line, step.place, why))
    since.run(b"", last=True)
    return Outcome(since.events, expectations, tuple(failures))


def check(bench: "Bench", text: Union[str, bytes], name: str = "text", library: Optional[Library] = None) -> Outcome:
    """The same for tests: an expectation that failed raises ExpectationFailed, once the script is at its end."""
    outcome = run(bench, text, name, library)
    if not outcome.held:
        raise ExpectationFailed(outcome)
    return outcome

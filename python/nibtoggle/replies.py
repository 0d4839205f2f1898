"""Replies as values, refusals by number with their rule's words, and the status byte."""
from __future__ import annotations

from typing import Dict, Iterator, List, Mapping, NamedTuple, Optional, Sequence, Tuple, Type, Union, overload

from ._library import Library

NO_RULE = "no rule has this number"


class _Rules(Mapping[int, str]):
    """What each refusal number means, in the library's words; asked for once, when the first is wanted."""

    def __init__(self) -> None:
        self._words: Dict[int, str] = {}

    def _all(self) -> Dict[int, str]:
        if not self._words:
            library = Library.any()
            said = {number: library.words(library.say_rule, number) for number in range(256)}
            self._words = {number: words for number, words in said.items() if words}
        return self._words

    def __getitem__(self, number: int) -> str:
        return self._all()[number]

    def __iter__(self) -> Iterator[int]:
        return iter(self._all())

    def __len__(self) -> int:
        return len(self._all())


#: What each refusal number means: the words that nib and the C header have.
RULES: Mapping[int, str] = _Rules()

#: Kinds of events, as a record's first byte has them.
COMMAND, ADDRESS, DATA_IN, DATA_OUT, FINISH, PROTECT = range(6)


def event_words(kind: int, value: int) -> str:
    """An event for a message, in the library's words, without a command's name: 'command 80h', 'finish LUN 1'."""
    library = Library.any()
    return library.words(library.say_event, 0, kind, value, 0).split("  ")[0]


class Reply(NamedTuple):
    """One reply: its two bytes, and what they say."""

    first: int
    second: int

    @property
    def ok(self) -> bool:
        """The event was accepted, with or without a byte."""
        return self.first != 2

    @property
    def byte(self) -> Optional[int]:
        """The byte that a data-out cycle gave, or None."""
        return self.second if self.first == 1 else None

    @property
    def refusal(self) -> int:
        """The refusal's number, or 0."""
        return self.second if self.first == 2 else 0

    @property
    def words(self) -> str:
        """The refusal's rule in words, or ''."""
        return RULES.get(self.refusal, "")

    def __str__(self) -> str:
        if self.first == 2:
            return "refused %d (%s)" % (self.second, self.words)
        return "accepted" if self.first == 0 else "byte %02Xh" % self.second


class Replies(Sequence[Reply]):
    """The replies of some records, in order; `raw` is their bytes as the library wrote them, `records` what they answer.

    The repr tells the first refusal with its event, so that a failed `assert replies.ok` says what was wrong.
    """

    __slots__ = ("raw", "records")

    def __init__(self, raw: bytes, records: bytes = b"") -> None:
        self.raw = raw
        self.records = records

    def __len__(self) -> int:
        return len(self.raw) // 2

    @overload
    def __getitem__(self, at: int) -> Reply: ...

    @overload
    def __getitem__(self, at: slice) -> "Replies": ...

    def __getitem__(self, at: Union[int, slice]) -> Union[Reply, "Replies"]:
        if isinstance(at, slice):
            chosen = range(len(self))[at]
            return Replies(*(b"".join(of[2 * i:2 * i + 2] for i in chosen) for of in (self.raw, self.records)))
        i = range(len(self))[at]
        return Reply(self.raw[2 * i], self.raw[2 * i + 1])

    def __eq__(self, other: object) -> bool:
        if not isinstance(other, Replies):
            return NotImplemented
        return self.raw == other.raw

    def __hash__(self) -> int:
        return hash(self.raw)

    def __repr__(self) -> str:
        at = self.first_refused
        if at is None:
            return "Replies(%d accepted%s)" % (len(self), ", %d with a byte" % len(self.data) if self.data else "")
        refused = self.raw[::2].count(2)
        return "Replies(%s%s; event %d of %d)" % (
            self.told(at), ", and %d more refused" % (refused - 1) if refused > 1 else "", at + 1, len(self))

    def event(self, at: int) -> Optional[Tuple[int, int]]:
        """The record that a reply answers, as (kind, value); None where it is not known, or is an odd byte."""
        pair = self.records[2 * at:2 * at + 2]
        return (pair[0], pair[1]) if len(pair) == 2 else None

    def told(self, at: int) -> str:
        """A refusal in words: 'command 10h refused with 3: ...'."""
        event = self.event(at)
        number = self.raw[2 * at + 1]
        what = event_words(*event) if event is not None else "event"
        return "%s refused with %d: %s" % (what, number, RULES.get(number, NO_RULE))

    @property
    def first_refused(self) -> Optional[int]:
        """Which record was refused first, or None."""
        at = self.raw[::2].find(2)
        return None if at < 0 else at

    @property
    def ok(self) -> bool:
        """None was refused."""
        return self.first_refused is None

    @property
    def refusals(self) -> List[Tuple[int, int]]:
        """Each refusal as (which record, number)."""
        return [(i, reply.second) for i, reply in enumerate(self) if reply.first == 2]

    @property
    def data(self) -> bytes:
        """The bytes that data-out cycles gave, in order."""
        firsts = self.raw[::2]
        if firsts.count(1) == len(firsts):
            return self.raw[1::2]
        return bytes(second for first, second in zip(firsts, self.raw[1::2]) if first == 1)


class Refused(Exception):
    """An event, or a power-on, was refused.

    `number` and `words` say why, and `detail` which field or buffer it was, where power-on says 23 or 24. `event` is the (kind, value)
    that was refused, and `index` which of a call's events it was; both are None for a power-on. `replies` has the replies of the whole
    call.
    """

    def __init__(self, number: int, event: Optional[Tuple[int, int]] = None, index: Optional[int] = None,
                 replies: Optional[Replies] = None, detail: str = "") -> None:
        self.number = number
        self.words = RULES.get(number, NO_RULE)
        self.detail = detail
        self.event = event
        self.index = index
        self.replies = replies if replies is not None else Replies(b"")
        what = "power-on" if event is None else event_words(*event)
        which = "; " + detail if detail else ""
        where = "" if not index else " (event %d of the call)" % (index + 1)
        super().__init__("%s refused with %d: %s%s%s" % (what, number, self.words, which, where))

    def __reduce__(self) -> Tuple[Type["Refused"], Tuple[object, ...]]:
        # an exception is made anew from its message unless it says how: this one must pass process pools
        return type(self), (self.number, self.event, self.index, self.replies, self.detail)


class NotReady(Exception):
    """A LUN was polled, and still works: `lun`, how many `polls` there were, and the last `status`."""

    def __init__(self, lun: int, polls: int, status: "Status") -> None:
        self.lun = lun
        self.polls = polls
        self.status = status
        super().__init__("LUN %d is not ready after %d poll%s" % (lun, polls, "" if polls == 1 else "s"))

    def __reduce__(self) -> Tuple[Type["NotReady"], Tuple[object, ...]]:
        return type(self), (self.lun, self.polls, self.status)


class Status(int):
    """A status byte, as 70h and 78h give it."""

    @property
    def ready(self) -> bool:
        """The LUN does not work (bits 5 and 6)."""
        return self & 0x60 == 0x60

    @property
    def fail(self) -> bool:
        """The last program or erase failed (bit 0, told when ready): on a bad block; a program also on a full page, or
        out of page order."""
        return self & 0x01 != 0

    @property
    def protected(self) -> bool:
        """The protect line is low (bit 7 is 0)."""
        return self & 0x80 == 0

    def __repr__(self) -> str:
        return "Status(%02Xh: %s%s%s)" % (
            int(self), "ready" if self.ready else "working", ", failed" if self.fail else "", ", protected" if self.protected else "",
        )

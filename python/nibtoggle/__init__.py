"""A proved bench model of an ONFI NAND flash target, for loader tests in Python.

    from nibtoggle import Bench

    bench = Bench.t1()                       # a small part of two LUNs, powered on
    bench.reset()                            # FFh, which a part wants first
    bench.program(0, 3, 1, b"preset")        # LUN 0, block 3, page 1
    assert bench.read_page(0, 3, 1, count=6) == b"preset"

Every event is answered by the proved library (libnibtoggle.so, which `tools/build-host` makes); this package only writes
the cycles and reads the replies. Standard library only.
"""
from ._library import Library, LibraryNotFound
from .bench import Bench, Rest, UnwrittenZeros
from .folder import FolderError
from .jobs import Job
from .pages import PAGE_RULES, BrokenRule, NoGoodCopy, PageCheck, WrongLength, check_page
from .part import Part, crc, parameter_page
from .parts import PARTS, KnownPart
from .replies import RULES, NotReady, Refused, Replies, Reply, Status
from .scripts import ExpectationFailed, Failure, Outcome
from .text import BadWord, records_of, text_of

#: As VERSION has it; tools/version sets it everywhere.
__version__ = "0.6.1"

__all__ = [
    "BadWord",
    "Bench",
    "BrokenRule",
    "ExpectationFailed",
    "Failure",
    "FolderError",
    "Job",
    "KnownPart",
    "Library",
    "LibraryNotFound",
    "NoGoodCopy",
    "NotReady",
    "Outcome",
    "PAGE_RULES",
    "PARTS",
    "PageCheck",
    "Part",
    "RULES",
    "Refused",
    "Replies",
    "Reply",
    "Rest",
    "Status",
    "UnwrittenZeros",
    "WrongLength",
    "__version__",
    "check_page",
    "crc",
    "parameter_page",
    "records_of",
    "text_of",
]

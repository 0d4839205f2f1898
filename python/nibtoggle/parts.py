"""Parts by name: the worked parts T1, T2 and W, and six of a maker's, whose parameter pages are those that the maker printed."""
from __future__ import annotations

from typing import Dict, List, NamedTuple

from .part import FEATURE_MORE_LUNS, PAGE_LENGTH, Part, crc, fields_outside, parameter_page


class KnownPart(NamedTuple):
    """A part that is known by name: its 256 parameter bytes and its device ID."""

    name: str
    page: bytes
    device_id: int

    @property
    def part(self) -> Part:
        return Part.of(self.page)


#: What the six have in common, as bytes from a place on.
_COMMON = {
    0: "4f4e4649 1e00 5801 ff03", 14: "03", 32: "4d4943524f4e202020202020", 64: "2c", 81: "20", 84: "c001", 92: "80", 97: "10", 100: "01 23 01 50 00 06 04 01",
    110: "04 00 08 01 1e", 129: "3f", 133: "30 02 58 1b 23 00 c8", 151: "07 23 00 6e", 164: "01 00 01", 170: "04 10 01 81 04 02 02 01 1e 90", 253: "04",
}


def _maker_s(name: str, device_id: int, luns: int, pads: int, strength: int) -> KnownPart:
    """`pads` and `strength` are bytes 128 and 150, electrical values in which the parts differ."""
    page = bytearray(PAGE_LENGTH)
    for at, said in _COMMON.items():
        bytes_ = bytes.fromhex(said)
        page[at:at + len(bytes_)] = bytes_
    page[6] |= FEATURE_MORE_LUNS * (luns > 1)
    page[44:64] = name.encode("ascii").ljust(20)
    page[100] = luns
    page[128], page[150] = pads, strength
    page[254:256] = crc(bytes(page[:254])).to_bytes(2, "little")
    return KnownPart(name, bytes(page), device_id)


#: Bits of the two words that only W sets, and the model does not look at: several planes; cache programming.
_PLANES, _CACHE = 1 << 3, 1 << 0

#: Every part that has a name, in the order of `parts`.
PARTS: Dict[str, KnownPart] = {known.name: known for known in (
    KnownPart("T1", parameter_page(), 0x68),
    KnownPart("T2", parameter_page(pages=3, blocks=5), 0x68),
    KnownPart("W", parameter_page(copyback=True, any_order=True, more_features=_PLANES, more_options=_CACHE), 0x68),
    _maker_s("MT29F32G08ABAAAWP", 0x68, 1, 0x06, 0x0A),
    _maker_s("MT29F64G08AFAAAWP", 0x68, 1, 0x05, 0x07),
    _maker_s("MT29F128G08AJAAAWP", 0x88, 2, 0x09, 0x09),
    _maker_s("MT29F128G08AKAAAC5", 0x88, 2, 0x0A, 0x0A),
    _maker_s("MT29F128G08AMAAAC5", 0x68, 1, 0x05, 0x05),
    _maker_s("MT29F256G08AUAAAC5", 0x88, 2, 0x08, 0x07),
)}


def copies_of(answer: bytes) -> List[bytes]:
    """What an ECh answer of 768 bytes has: three copies of a page."""
    return [answer[at:at + PAGE_LENGTH] for at in range(0, len(answer), PAGE_LENGTH)]


def page_of(answer: bytes) -> bytes:
    """The parameter page of an answer to ECh: of 768 bytes the first copy that is signed and whose CRC is right, and the first where none
    is; any other bytes as they are."""
    if len(answer) != 3 * PAGE_LENGTH:
        return answer
    copies = copies_of(answer)
    for page in copies:
        if page[:4] == b"ONFI" and crc(page[:254]) == int.from_bytes(page[254:256], "little"):
            return page
    return copies[0]


def part_words(page: bytes) -> str:
    """A page in one line: '512+16 bytes, 4 pages, 8 blocks, 2 LUNs, array 33792 bytes'."""
    outside = fields_outside(page)
    part = Part.of(page)
    spare = int.from_bytes(page[84:86], "little")
    return "; ".join(outside) or "%d+%d bytes, %d pages, %d blocks, %d LUN%s, array %d bytes" % (
        part.page_size - spare, spare, part.pages, part.blocks, part.luns, "s" * (part.luns > 1), part.array_length)

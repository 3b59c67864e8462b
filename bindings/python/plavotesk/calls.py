"""Packets, messages, packed codes, count formats and the cadence: the proved calls, one function each.

A call takes all numbers: what document 01 has a refusal for is refused by it, however large. Bytes are read where they lie; what a
call writes goes into a bytearray (or another writable buffer) of the caller's.
"""
from __future__ import annotations

import ctypes
from typing import Any, Iterator, NamedTuple

from ._lent import Lent, held, lent, upward, whole, within
from ._library import library
from .refusals import BitsRanOut, NoPacket, accepted

_u8, _u16, _u32, _u64 = ctypes.c_uint8, ctypes.c_uint16, ctypes.c_uint32, ctypes.c_uint64
_i32, _f64 = ctypes.c_int32, ctypes.c_double


class Found(NamedTuple):
    """Where a packet stands, and the bytes skipped before it."""

    place: int
    skipped: int


class Header(NamedTuple):
    """A packet's APID (which source on the board it comes from) and its number of data bytes."""

    apid: int
    length: int


class Packet(NamedTuple):
    """A packet of a capture: where it stands, its APID, its data (a view into the capture), and the bytes skipped since the packet before it."""

    place: int
    apid: int
    data: memoryview
    skipped: int


class Message(NamedTuple):
    """A command message: a 14-bit address, a size tag (0 to 3 for 0, 2, 4 or 8 bytes) and the value."""

    address: int
    tag: int
    value: int


class Reading(NamedTuple):
    """A packed count: it was somewhere from low to high; where exact, it was that count."""

    low: float
    high: float
    exact: bool


class Rate(NamedTuple):
    """Counts a second: of the low and of the high edge of the band, and over how many seconds."""

    low: float
    high: float
    seconds: float


def _one(call: Any, kind: Any, *given: Any) -> Any:
    """The one value that a call writes."""
    value = kind()
    accepted(call(*given, value))
    return value.value


def checksum(given: Any) -> int:
    """The checksum of bytes. Refuses nothing."""
    address, length, _keep = lent('given', given)
    return library().plv_checksum(address, length)


def packet_find(capture: Any, start: int = 0) -> Found:
    """The first place from `start` on where a packet stands (mark, length and checksum agree), and the bytes skipped from `start` on.
    Refusals 1 (more than 65,536 bytes from `start` on); 20, which carries the bytes skipped."""
    address, length, keep = lent('capture', capture)
    start = min(upward('start', start, 63), length)
    if start:
        keep = keep if isinstance(keep, Lent) else Lent('capture', capture)
        address = keep.address + start
    place, skipped = _u64(), _u64()
    number = library().plv_packet_find(address, length - start, place, skipped)
    accepted(number, skipped.value if number == NoPacket.number else None)
    return Found(start + place.value, skipped.value)


def packet_header(capture: Any, place: int) -> Header:
    """The APID and the number of data bytes of the packet at a place. Refusals 1, 20."""
    address, length, _keep = lent('capture', capture)
    apid, size = _u16(), _u16()
    accepted(library().plv_packet_header(address, length, within('place', place, 64), apid, size))
    return Header(apid.value, size.value)


def packet_payload(capture: Any, place: int) -> memoryview:
    """The data of the packet at a place, as a memoryview into the capture; empty where no packet stands. Refuses nothing."""
    address, length, _keep = lent('capture', capture)
    start, size = _u64(), _u64()
    library().plv_packet_payload(address, length, within('place', place, 64), start, size)
    return memoryview(capture).cast('B')[start.value:start.value + size.value]


def packets(capture: Any, start: int = 0) -> Iterator[Packet]:
    """The packets of a capture, one after the other; it ends where none stands any more. Refusal 1."""
    while True:
        try:
            place, skipped = packet_find(capture, start)
        except NoPacket:
            return
        apid, _length = packet_header(capture, place)
        data = packet_payload(capture, place)
        yield Packet(place, apid, data, skipped)
        start = place + len(data) + 10


def packet_write(buffer: Any, apid: int, data: Any) -> int:
    """Writes a packet to the front of a bytearray, and answers its bytes. Refusals 2, 3."""
    into = Lent('buffer', buffer, writable=True)
    address, length, _keep = lent('data', data)
    return _one(library().plv_packet_write, _u64, into.address, into.length, held('apid', apid, 16), address, length)


def message_read(given: Any) -> tuple[Message, int]:
    """The message at the front of the bytes, and the bytes it used. Refusals: under 4 bytes 5, then 4, 5, 6."""
    start, length, _keep = lent('given', given)
    address, tag, value, used = _u16(), _u8(), _u64(), _u64()
    accepted(library().plv_message_read(start, length, address, tag, value, used))
    return Message(address.value, tag.value, value.value), used.value


def message_write(buffer: Any, message: Message) -> int:
    """Writes a message to the front of a bytearray, and answers its bytes. Refusals 7, 3."""
    address, tag, value = message
    into = Lent('buffer', buffer, writable=True)
    value = whole('value', value)
    fits = 0 <= value < 1 << 64
    tag = within('tag', tag, 8) if fits else 255
    return _one(library().plv_message_write, _u64, into.address, into.length, within('address', address, 16), tag, value if fits else 0)


def code_pack(buffer: Any, at: int, value: int, drop: int) -> int:
    """Packs a number of at most 67,108,863 either way at a bit position of a bytearray, with drop 0 or 3, and answers the next position. Drop 3
    leaves out three more bits than drop 0. Refusals 8, 3."""
    into = Lent('buffer', buffer, writable=True)
    value = max(-(2 ** 31 - 1), min(whole('value', value), 2 ** 31 - 1))
    return _one(library().plv_code_pack, _u64, into.address, into.length, upward('at', at, 64), value, within('drop', drop, 8))


def _code_accepted(number: int, missing: Any) -> None:
    """Raises the refusal of a code that is read, where it is one; 9 carries the bits missing."""
    accepted(number, missing.value if number == BitsRanOut.number else None)


def code_unpack(given: Any, at: int, drop: int) -> tuple[int, int]:
    """The number that the code at a bit position decodes to, and the next position. It is NOT the count that went in: a code stands for a
    band of counts, which `reading` gives. Zeros that pad the last byte read as codes of 0: know how many codes there are.
    Refusals 8; 9, which carries the bits missing; 10, 11."""
    address, length, _keep = lent('given', given)
    value, position, missing = _i32(), _u64(), _u8()
    asked = upward('at', at, 64), within('drop', drop, 8)
    _code_accepted(library().plv_code_unpack(address, length, *asked, value, position, missing), missing)
    return value.value, position.value


def reading(given: Any, at: int, drop: int) -> tuple[Reading, int]:
    """The count at a bit position, as the edges of its band and whether it is exact; and the next position. Refusals 8; 9, which carries the
    bits missing; 10, 11; 8 also for a negative number."""
    address, length, _keep = lent('given', given)
    low, high, exact, position, missing = _f64(), _f64(), _u8(), _u64(), _u8()
    asked = upward('at', at, 64), within('drop', drop, 8)
    _code_accepted(library().plv_reading(address, length, *asked, low, high, exact, position, missing), missing)
    return Reading(low.value, high.value, exact.value == 1), position.value


def rate(given: Any, at: int, drop: int, level: int) -> tuple[Rate, int]:
    """The count at a bit position as a rate over the seconds of a cadence level, and the next position. Refusals as of `reading`, then 19."""
    address, length, _keep = lent('given', given)
    low, high, seconds, position, missing = _f64(), _f64(), _f64(), _u64(), _u8()
    asked = upward('at', at, 64), within('drop', drop, 8), within('level', level, 8)
    _code_accepted(library().plv_rate(address, length, *asked, low, high, seconds, position, missing), missing)
    return Rate(low.value, high.value, seconds.value), position.value


def _run(call: Any, given: Any, count: int, at: int, *more: Any) -> Iterator[Any]:
    """What a call answers, code after code; the bytes are lent once."""
    kept = given if type(given) is bytes else Lent('given', given)
    for _ in range(whole('count', count)):
        answer, at = call(kept, at, *more)
        yield answer


def codes(given: Any, count: int, drop: int, at: int = 0) -> Iterator[int]:
    """The numbers that so many codes decode to, one after the other: the middle of each band, not what went in. `count` must be said, since
    zeros that pad the last byte read as codes of 0. A refusal ends it as it ends `code_unpack`."""
    return _run(code_unpack, given, count, at, drop)


def readings(given: Any, count: int, drop: int, at: int = 0) -> Iterator[Reading]:
    """The readings of so many codes, one after the other; refusals as of `reading`."""
    return _run(reading, given, count, at, drop)


def rates(given: Any, count: int, drop: int, level: int, at: int = 0) -> Iterator[Rate]:
    """The rates of so many codes over the seconds of a level, one after the other; refusals as of `rate`."""
    return _run(rate, given, count, at, drop, level)


def float16_code(count: int) -> int:
    """The 16-bit float of a count: the largest whose value is not above it. Refusal 12."""
    return _one(library().plv_float16_code, _u16, upward('count', count, 64))


def float16_count(code: int) -> int:
    """The count that a 16-bit float means. Refuses nothing; a code of more bits is an OverflowError."""
    return library().plv_float16_count(held('code', code, 16))


def float8_code(count: int) -> int:
    """The 8-bit float of a count: the largest whose value is not above it. Refusal 12."""
    return _one(library().plv_float8_code, _u8, upward('count', count, 64))


def float8_count(code: int) -> int:
    """The count that an 8-bit float means. Refuses nothing; a code of more bits is an OverflowError."""
    return library().plv_float8_count(held('code', code, 8))


def int24_code(count: int) -> int:
    """The 24-bit integer of a count. Refusal 12."""
    return _one(library().plv_int24_code, _u32, upward('count', count, 64))


def int24_count(code: int) -> int:
    """The count that a 24-bit integer means. Refusal 12."""
    return _one(library().plv_int24_count, _u32, within('code', code, 32))


def log8_code(count: int) -> int:
    """The logarithm byte of a count, eight steps to a doubling. Refusal 12."""
    return _one(library().plv_log8_code, _u8, upward('count', count, 64))


def log8_counts(code: int) -> tuple[int, int] | None:
    """The smallest and the largest count that give a logarithm byte; None where no count gives it. A byte stands for a run of counts, NOT for
    one count: what went in may be any of them. Refuses nothing; a code of more bits is an OverflowError."""
    low, high, some = _u64(), _u64(), _u8()
    library().plv_log8_counts(held('code', code, 8), low, high, some)
    return (low.value, high.value) if some.value == 1 else None


def level_seconds(level: int) -> int:
    """The seconds that a cadence level lasts. Refusal 19."""
    return _one(library().plv_level_seconds, _u16, within('level', level, 8))


def second_beginning(second: int) -> int:
    """The highest cadence level that begins in a second of the hour. Refusal 19."""
    return _one(library().plv_second_beginning, _u8, within('second', second, 16))


def second_ending(second: int) -> int:
    """The highest cadence level that ends with a second of the hour. Refusal 19."""
    return _one(library().plv_second_ending, _u8, within('second', second, 16))

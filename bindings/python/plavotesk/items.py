"""The table of a packet ask: items with their fields, and what goes with them."""
from __future__ import annotations

import enum
from typing import Any, NamedTuple, Sequence

from ._lent import held, whole, within

# Where the fields of an item stand in its 64 bits, and how many bits each has; and a window that no memory has.
_CELLS = ('address', 0, 18), ('xsize', 32, 8), ('ysize', 40, 8), ('ystride', 48, 16)
_FLAGS = ('clear', 22), ('send', 21), ('add', 20)
_NOWHERE = 0x3ffff | 1 << 32


class Format(enum.IntEnum):
    """How the result of an item is sent: FLOAT16 in 16 bits, the code of `float16_code`; LOG8 in 8, the byte of `log8_code`, a run of counts;
    INT24 in 24, the count itself; PACKED in 1 bit or in 7 to 29, the code of `code_pack` with drop 0, a band of counts, which `reading`
    gives."""

    FLOAT16 = 0
    LOG8 = 1
    INT24 = 2
    PACKED = 3


class Item(NamedTuple):
    """An item of a packet's table: a window as of an ask, whether its result is sent, whether it adds the result of the item before it, and the
    format it is sent in. The first item adds nothing, and none adds the result of one that is sent (22)."""

    address: int
    xsize: int
    ysize: int
    ystride: int
    clear: bool
    send: bool
    add: bool
    format: Format

    @property
    def word(self) -> int:
        """Its 64 bits. A window that no memory has, where a number does not fit its bits (14); a format that does not is an OverflowError."""
        sizes = [(whole(name, getattr(self, name)), at, bits) for name, at, bits in _CELLS]
        fit = all(0 <= size < 1 << bits for size, _at, bits in sizes)
        cells = sum(size << at for size, at, _bits in sizes) if fit else _NOWHERE
        flags = sum((whole(name, getattr(self, name)) != 0) << at for name, at in _FLAGS)
        return cells | flags | held('format', self.format, 2) << 18

    @classmethod
    def of(cls, word: int) -> Item | None:
        """The item of 64 bits; None where sum, res or enc are not 0, which no ask is accepted with (22)."""
        word = held('word', word, 64)
        sizes = (word >> at & (1 << bits) - 1 for _name, at, bits in _CELLS)
        flags = (word >> at & 1 == 1 for _name, at in _FLAGS)
        return None if word >> 23 & 0x1ff else cls(*sizes, *flags, Format(word >> 18 & 3))


class PacketInputs(NamedTuple):
    """What a packet ask asks for: the low byte of the packet's APID (0x03 and that byte), the items, at most 64 (each an `Item`, or its 64
    bits), two flag bits, an initial level, and a second of the hour, whose ending level the packet bears."""

    low: int
    items: Sequence[Item | int]
    flags: int
    initial: int
    second: int


def _word(item: Any) -> int:
    """The 64 bits of an item."""
    return item.word if isinstance(item, Item) else held('item', item, 64)


def inputs_of(inputs: Any) -> PacketInputs:
    """Inputs by whole numbers, the items by their bits; what is outside its range becomes what is refused by 19."""
    said = PacketInputs(*inputs)
    items = tuple(_word(item) for item in said.items)
    flags, initial, second = within('flags', said.flags, 8), within('initial', said.initial, 8), within('second', said.second, 16)
    return PacketInputs(held('low', said.low, 8), items, flags, initial, second)

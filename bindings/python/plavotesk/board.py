"""Histogram memory with its state: a board's counters in two pages, and asks that are things.

An ask is made once, with its number and its window. It is tried as often as the link needs, and each try answers the same sum. Until it is
filed or given up, the board makes no other: so an answer that was lost cannot be filed as 0.

    with board.ask(window) as ask:
        total = over_the_link(ask.answer).sum   # again and again, as often as it times out
        sheet[ask.number] = total               # onto the sheet under the ask's number, before the block is left

Leaving the block says that the sum is on the sheet, and the board may make the next ask; leaving it by an exception keeps the ask open, and
`board.open_ask` is where to go on.

A packet ask is such a thing too: `board.ask_packet(inputs)`, of which each try answers the same packet and the same total.

Calls on one board go one after the other, whatever thread they come from. A board cannot be copied or pickled: two of them would file one
count twice.
"""
from __future__ import annotations

import array
import ctypes
import struct
import threading
from typing import Any, ContextManager, Iterable, NamedTuple

from ._lent import Lent, whole, within
from ._library import library
from .items import PacketInputs, inputs_of
from .refusals import AskOutOfTurn, CountTooLarge, ForbiddenItem, OutOfRange, TooManyItems, WordAboveFull, WrongAddress, WrongMemory, accepted

_ASK = struct.Struct('<HIBBHB')
_PACKET = struct.Struct('<HBBBH')

#: The words of a state (PLV_STATE_WORDS of the header).
STATE_WORDS = 323

#: The most bytes of a packet that a packet ask writes (PLV_HISTOGRAM_PACKET_BYTES of the header).
PACKET_BYTES = 243


class Window(NamedTuple):
    """The counters that an ask sums: rows of xsize + 1 cells, ysize + 1 of them; a row begins ystride after the last cell of the row before.
    `clear` sets each to 0 as it is read."""

    address: int
    xsize: int
    ysize: int
    ystride: int
    clear: bool


def _window(window: Any) -> Window:
    """A window by whole numbers; one that no memory has, where a number is beyond all of them."""
    said = Window(*window)
    sizes = [whole(name, size) for name, size in zip(Window._fields, said[:4])]
    fit = all(0 <= size < 1 << bits for size, bits in zip(sizes, (32, 8, 8, 16)))
    return Window(*(sizes if fit else (0xffffffff, 0, 0, 0)), whole('clear', said.clear) != 0)


def _addresses(addresses: Iterable[int]) -> array.array:
    """Addresses as the library takes them; what no address can be becomes the largest, which no memory has."""
    if isinstance(addresses, array.array) and addresses.typecode == 'I':
        return addresses
    said = list(addresses)
    try:
        return array.array('I', said)
    except (OverflowError, TypeError):
        return array.array('I', [within('address', address, 32) for address in said])


class Sum(NamedTuple):
    """What an ask answers: the sum, and whether it was answered before."""

    sum: int
    again: bool


class Fed(NamedTuple):
    """What feeding many answers: how many were counted, and the number of the refusal that ended it, 0 where all were."""

    count: int
    ended: int


class AskStillOpen(Exception):
    """A new ask was wanted while another one is open: its answer may have been lost. Try it again, file it, or give it up."""


class PacketAnswer(NamedTuple):
    """What a packet ask answers: the packet, the total of the windows of its clearing items, and whether it was answered before."""

    packet: bytes
    total: int
    again: bool


class PacketWritten(NamedTuple):
    """What a packet ask into a buffer of the caller's answers: the packet's bytes at its front, the total, and whether it was answered before."""

    written: int
    total: int
    again: bool


class _Ask:
    """What asks of both kinds have in common: a number, as many tries as it takes, and an end."""

    _answered: Any = None
    _refused = False

    def __init__(self, board: Histogram, number: int) -> None:
        self._board, self.number = board, number

    def _answer(self) -> Any:
        """One try."""
        raise NotImplementedError

    def _tried(self) -> Any:
        """One try. A refusal of what it asks for cleared nothing, and ends the ask; tried once more, it is open again."""
        self._board._open_again(self)
        try:
            self._answered = self._answer()
        except (TooManyItems, ForbiddenItem, OutOfRange, WrongAddress, WordAboveFull, CountTooLarge):
            self._refused = True
            self._board._done(self)
            raise
        self._refused = False
        return self._answered

    def _filed(self) -> Any:
        """What it answered, tried where no try came through; it is done."""
        filed = self._answered or self._tried()
        self._board._done(self)
        return filed

    def give_up(self) -> None:
        """The caller lets the ask go, answered or not: what it cleared is not filed by it."""
        self._board._done(self)

    def __exit__(self, kind: Any, why: Any, trace: Any) -> None:
        # one that was given up or refused within the block is not tried once more, where nobody would see what it cleared
        if kind is None and self._board.open_ask is self:
            self._filed()


class Ask(_Ask):
    """An ask: its number, its window, and as many tries as it takes. Made by `Histogram.ask`."""

    def __init__(self, board: Histogram, number: int, window: Window) -> None:
        super().__init__(board, number)
        self.window = window

    def __repr__(self) -> str:
        return f'<ask {self.number} of {self.window}>'

    def _answer(self) -> Sum:
        return self._board.ask_numbered(self.number, self.window)

    def _said(self) -> tuple[bytes, bytes]:
        """Its record in a board's file."""
        return b'M', _ASK.pack(self.number, *self.window)

    def answer(self) -> Sum:
        """One try: the sum. Every further try answers the same sum, as again, and changes nothing. Refusals 14 and 16, which cleared nothing
        and end the ask; 18 or 17 where another ask was numbered by hand since, which leave it open, to be given up."""
        return self._tried()

    def file(self) -> int:
        """The sum, which is on the sheet: the ask is done, and the board may make the next one. Tries it where no try came through."""
        return self._filed().sum

    def __enter__(self) -> Ask:
        return self


class PacketAsk(_Ask):
    """A packet ask: its number, its inputs, and as many tries as it takes. Made by `Histogram.ask_packet`."""

    def __init__(self, board: Histogram, number: int, inputs: PacketInputs) -> None:
        super().__init__(board, number)
        self.inputs = inputs

    def __repr__(self) -> str:
        return f'<packet ask {self.number} of {len(self.inputs.items)} items>'

    def _answer(self) -> PacketAnswer:
        buffer = bytearray(PACKET_BYTES)
        written, total, again = self._board.packet_numbered(self.number, self.inputs, buffer)
        return PacketAnswer(bytes(buffer[:written]), total, again)

    def _said(self) -> tuple[bytes, bytes]:
        """Its record in a board's file."""
        return b'Q', _packed(self.number, self.inputs)

    def answer(self) -> PacketAnswer:
        """One try: the packet and its total. Every further try answers the same, as again, and changes nothing, whatever was counted since.
        Refusals 23, 22, 19, 14, 16 and 12, which cleared nothing and end the ask; 18 or 17 where another ask was numbered by hand since, which
        leave it open, to be given up."""
        return self._tried()

    def file(self) -> PacketAnswer:
        """The packet and its total, which are on the sheet: the ask is done, and the board may make the next one. Tries it where no try came
        through."""
        return self._filed()

    def __enter__(self) -> PacketAsk:
        return self


def _packed(number: int, inputs: PacketInputs) -> bytes:
    """A packet ask as a record has it."""
    low, items, flags, initial, second = inputs
    return _PACKET.pack(number, low, flags, initial, second) + struct.pack(f'<{len(items)}Q', *items)


def _unpacked(said: bytes) -> tuple[int, PacketInputs]:
    """The packet ask of a record."""
    number, low, flags, initial, second = _PACKET.unpack_from(said)
    items = said[_PACKET.size:]
    return number, PacketInputs(low, struct.unpack(f'<{len(items) // 8}Q', items), flags, initial, second)


class Histogram:
    """Counters in two pages, and numbered asks. `Histogram(counters)` lives with its process; `plavotesk.BoardFile` lives in a file."""

    def __init__(self, counters: int) -> None:
        """A fresh memory of two pages of so many counters each (1 to 262,144); the first is active. Refusal 13."""
        counters = whole('counters', counters)
        if not 1 <= counters <= 262144:
            raise WrongMemory()
        self._lock = threading.RLock()
        self._memory = (ctypes.c_uint32 * (2 * counters))()
        self._state = (ctypes.c_uint64 * STATE_WORDS)()
        self._slices = self._memory, 2 * counters, self._state, STATE_WORDS
        self._open: Ask | PacketAsk | None = None
        accepted(library().plv_histogram_open(*self._slices))

    def __copy__(self) -> Histogram:
        raise TypeError('a board cannot be copied: two of them would file one count twice')

    def __deepcopy__(self, memo: Any) -> Histogram:
        return self.__copy__()

    def __reduce__(self) -> tuple:
        raise TypeError('a board cannot be pickled: two of them would file one count twice; plavotesk.BoardFile keeps one in a file')

    @property
    def counters(self) -> int:
        """The counters of a page."""
        return len(self._memory) // 2

    def increment(self, address: int) -> None:
        """A particle: adds 1 to a counter of the active page. Refusals 14, 16, 15."""
        address = within('address', address, 32)
        with self._written_down(b'I', struct.pack('<I', address), flush=False):
            number = library().plv_histogram_increment(*self._slices, address)
        accepted(number)

    def increments(self, addresses: Iterable[int]) -> Fed:
        """Many particles, one after the other, up to the first that would be refused: how many were counted, and the number by which it ended
        (0 where all were). An `array.array('I')` is lent as it is."""
        run = _addresses(addresses)
        count, ended = ctypes.c_uint64(), ctypes.c_uint8()
        kept = Lent('addresses', run)
        with self._written_down(b'I', run.tobytes(), flush=False):
            number = library().plv_histogram_increments(*self._slices, kept.address, len(run), count, ended)
        accepted(number)
        return Fed(count.value, ended.value)

    def flip(self) -> None:
        """Exchanges the active page, where particles count, and the idle one, which is asked. Refuses nothing."""
        with self._written_down(b'F'):
            number = library().plv_histogram_flip(*self._slices)
        accepted(number)

    @property
    def next_number(self) -> int:
        """The number that the next new ask bears, read from the state."""
        number = ctypes.c_uint16()
        with self._lock:
            accepted(library().plv_histogram_next(self._state, STATE_WORDS, number))
        return number.value

    @property
    def open_ask(self) -> Ask | PacketAsk | None:
        """The ask of either kind that is neither filed nor given up, if there is one."""
        return self._open

    def ask(self, window: Window) -> Ask:
        """A new ask of a window of the idle page, under the next number. Nothing is summed before `answer`. AskStillOpen while another ask
        is neither filed nor given up."""
        with self._lock:
            self._none_open()
            return self._made(Ask(self, self.next_number, _window(window)))

    def ask_packet(self, inputs: PacketInputs) -> PacketAsk:
        """A new ask of a data packet from the idle page, under the next number. Nothing is summed before `answer`. AskStillOpen while another
        ask of either kind is neither filed nor given up."""
        with self._lock:
            self._none_open()
            return self._made(PacketAsk(self, self.next_number, inputs_of(inputs)))

    def _none_open(self) -> None:
        """A new ask may be made."""
        if self._open is not None:
            raise AskStillOpen(f'{self._open!r} is still open, and its answer may have been lost: '
                               f'answer it again (open_ask.answer), file it (open_ask.file), or give it up (open_ask.give_up)')

    def _open_again(self, ask: _Ask) -> None:
        """An ask that was refused is tried once more: where it may be accepted now, it is open, so that its answer cannot be lost."""
        with self._lock:
            if ask._refused and self._open is not ask and self.next_number == ask.number:
                self._none_open()
                self._made(ask)

    def _made(self, ask: Any) -> Any:
        """A new ask, written down."""
        with self._written_down(*ask._said()):
            self._open = ask
        return ask

    def ask_numbered(self, number: int, window: Window) -> Sum:
        """An ask under a number of the caller's. The last accepted number with its window answers the same sum again and changes nothing.
        Refusals 18 or 17, 14, 16."""
        window = _window(window)
        number = whole('number', number)
        if not 0 <= number < 65536:
            raise AskOutOfTurn()
        total, again = ctypes.c_uint64(), ctypes.c_uint8()
        with self._written_down(b'A', _ASK.pack(number, *window)):
            refused = library().plv_histogram_ask(*self._slices, number, *window, total, again)
        accepted(refused)
        return Sum(total.value, again.value == 1)

    def packet_numbered(self, number: int, inputs: PacketInputs, buffer: Any) -> PacketWritten:
        """A packet ask under a number of the caller's, into a bytearray of the caller's; at most 243 bytes are written. The last accepted number
        with the same inputs writes the same packet again and changes nothing. Refusals 18 or 17, 23, 22, 19, item after item 14, 16, and 12
        where it is sent, then 3; the last one again meets only 3."""
        low, items, flags, initial, second = inputs = inputs_of(inputs)
        number = whole('number', number)
        if not 0 <= number < 65536:
            raise AskOutOfTurn()
        into = Lent('buffer', buffer, writable=True)
        table = (ctypes.c_uint64 * max(len(items), 1))(*items)
        written, total, again = ctypes.c_uint64(), ctypes.c_uint64(), ctypes.c_uint8()
        with self._written_down(b'P', struct.pack('<B', min(into.length, PACKET_BYTES)) + _packed(number, inputs)):
            refused = library().plv_histogram_packet(*self._slices, number, low, table, len(items), flags, initial, second, into.address,
                                                     into.length, written, total, again)
        accepted(refused)
        return PacketWritten(written.value, total.value, again.value == 1)

    @property
    def memory(self) -> list[int]:
        """The words of both pages, to look at."""
        with self._lock:
            return list(self._memory)

    def _done(self, ask: _Ask) -> None:
        """An ask is filed, given up or refused."""
        with self._lock:
            if self._open is ask:
                with self._written_down(b'D'):
                    self._open = None

    def _written_down(self, kind: bytes, said: bytes = b'', flush: bool = True) -> ContextManager:
        """Within it a call is made, alone; a board that lives in a file has written it down there before."""
        return self._lock

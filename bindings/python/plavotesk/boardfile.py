"""A board that lives in a file, and goes on after its bench died.

Every call is written down before its answer is given. Calls are deterministic, so opening the file plays them again and is exactly where
the bench was: an ask that was written down is answered again with the same sum, whether its first answer was seen or not, and one that was
not written down has cleared nothing.

    board = plavotesk.BoardFile('board-17.plv', 64)      # made, or gone on with
    if board.open_ask:                                   # the bench died between asking and filing
        with board.open_ask as ask:
            sheet[ask.number] = ask.answer().sum         # a sheet has one line an ask, under its number: filed twice is filed once

So is a packet ask (`plavotesk.PacketAsk`), which answers the same packet and the same total.

A file is a mark and records. A record is its kind, the length of what follows, a checksum of these two, what follows, and a checksum of it.
A torn last record is what a bench left that died as it wrote: nothing was answered by it, and it is dropped. A file that is damaged elsewhere
is refused, and left as it is. One process at a time has a file, by a lock on it. A call that was interrupted after it was written down leaves
the file ahead of the board, which then takes no call; open the file again, and the call is made.
"""
from __future__ import annotations

import array
import contextlib
import ctypes
import fcntl
import os
import struct
import threading
import zlib
from typing import Any, Iterator

from ._lent import whole
from .board import _ASK, STATE_WORDS, Ask, Histogram, PacketAsk, Window, _unpacked
from .refusals import Refusal

_MARK = b'PLAVOTESK board 1\n'
_HEAD = struct.Struct('<1sII')
_SUM = struct.Struct('<I')
# A snapshot, before there were packet asks (with ten state words) and since; particles; a flip; an ask that was made, one that was answered,
# of a window and of a packet; an ask that is done.
_BEFORE, _SNAPSHOT = b'S', b'B'
_KINDS = _BEFORE, _SNAPSHOT, b'I', b'F', b'M', b'A', b'Q', b'P', b'D'
_WORDS_BEFORE = 10
_SNAPSHOT_AFTER = 1 << 22


class BoardDamaged(Exception):
    """The file is no board's, or it is damaged elsewhere than at its end; it was left as it is."""


class BoardInUse(Exception):
    """Another process has the file."""


class BoardInterrupted(Exception):
    """An interrupt came between a call's record and the call: close the board and open its file again, which makes the call."""


def _record(kind: bytes, said: bytes) -> bytes:
    """A record."""
    head = struct.pack('<1sI', kind, len(said))
    return head + _SUM.pack(zlib.crc32(head)) + said + _SUM.pack(zlib.crc32(said))


def _records(text: bytes, path: str) -> Iterator[tuple[bytes, bytes, int]]:
    """The whole records of a file, each with the place where it ends; a torn last one is left out."""
    at = len(_MARK)
    while at < len(text):
        head = text[at:at + _HEAD.size]
        if len(head) < _HEAD.size or not any(head) and not any(text[at:]):
            return
        kind, length, check = _HEAD.unpack(head)
        if zlib.crc32(head[:5]) != check:
            raise BoardDamaged(f'{path} is damaged at byte {at}: a record has a wrong head')
        end = at + _HEAD.size + length + _SUM.size
        said = text[at + _HEAD.size:end - _SUM.size]
        if end > len(text):
            return
        if zlib.crc32(said) != _SUM.unpack(text[end - _SUM.size:end])[0]:
            if end == len(text):
                return
            raise BoardDamaged(f'{path} is damaged at byte {at}: a record does not have its checksum')
        if kind not in _KINDS:
            raise BoardDamaged(f'{path} has a record of a kind at byte {at} that this version does not know')
        yield kind, said, end
        at = end


class BoardFile(Histogram):
    """A board whose every call is written down in a file before it is answered. Asks and flips are flushed to the disk."""

    def __init__(self, path: Any, counters: int | None = None) -> None:
        """Goes on with the board of a file, or makes a fresh one of so many counters a page. BoardInUse where another process has it,
        BoardDamaged where it cannot be read, ValueError where its counters are others than said."""
        self._path = os.path.abspath(os.fspath(path))
        self._file: int | None = None
        self._lock = threading.RLock()
        self._process = os.getpid()
        self._since = 0
        self._ahead = False
        self._playing = True
        try:
            if os.path.exists(self._path):
                self._go_on(counters)
            else:
                self._make(counters)
        except BaseException:
            self.close()
            raise
        self._playing = False

    def _hold(self) -> None:
        """Locks the file, for as long as it is held."""
        try:
            fcntl.flock(self._file, fcntl.LOCK_EX | fcntl.LOCK_NB)
        except BlockingIOError:
            raise BoardInUse(f'another process has {self._path}') from None

    def _make(self, counters: int | None) -> None:
        """A fresh board. Its file comes into its place whole: a bench that dies before leaves none (but one that ends in .new)."""
        if counters is None:
            raise ValueError(f'{self._path} is new: say how many counters a page has')
        super().__init__(counters)
        new = f'{self._path}.{os.getpid()}.new'
        self._file = os.open(new, os.O_RDWR | os.O_CREAT | os.O_TRUNC | os.O_CLOEXEC, 0o644)
        self._hold()
        self._put(_MARK + self._snapshot(), flush=True)
        try:
            os.link(new, self._path)
        except FileExistsError:
            raise BoardInUse(f'another process made {self._path}') from None
        finally:
            os.unlink(new)
        folder = os.open(os.path.dirname(self._path), os.O_RDONLY)
        os.fsync(folder)
        os.close(folder)

    def _go_on(self, counters: int | None) -> None:
        """The board as the file says: the last whole snapshot, and what was done since."""
        self._file = os.open(self._path, os.O_RDWR | os.O_CLOEXEC)
        self._hold()
        with open(self._path, 'rb') as file:
            text = file.read()
        if not text.startswith(_MARK):
            raise BoardDamaged(f'{self._path} is not the file of a board')
        records = list(_records(text, self._path))
        last = max((i for i, record in enumerate(records) if record[0] in (_BEFORE, _SNAPSHOT)), default=None)
        if last is None:
            raise BoardDamaged(f'{self._path} has no whole snapshot')
        self._restore(*records[last][:2])
        if counters is not None and whole('counters', counters) != self.counters:
            raise ValueError(f'{self._path} has {self.counters} counters a page, not {counters}')
        for kind, said, _end in records[last + 1:]:
            self._play(kind, said)
        os.ftruncate(self._file, records[-1][2])

    def _restore(self, kind: bytes, said: bytes) -> None:
        """Memory, state and the open ask of a snapshot; words that one of before does not have are 0."""
        words = struct.unpack_from('<I', said)[0]
        super().__init__(words // 2)
        state = 4 + 4 * words
        kept = state + 8 * (_WORDS_BEFORE if kind == _BEFORE else STATE_WORDS)
        ctypes.memmove(self._memory, said[4:state], 4 * words)
        ctypes.memmove(self._state, said[state:kept], kept - state)
        ask = b'M' + said[kept:] if kind == _BEFORE else said[kept:]
        if said[kept:]:
            self._play(ask[:1], ask[1:])

    def _snapshot(self) -> bytes:
        """All there is of a board: the memory, the state's words, the open ask."""
        ask = b''.join(self._open._said()) if self._open else b''
        return _record(_SNAPSHOT, struct.pack('<I', len(self._memory)) + bytes(self._memory) + bytes(self._state) + ask)

    def _play(self, kind: bytes, said: bytes) -> None:
        """One record, done again; what was refused is refused again."""
        if kind == b'I':
            self.increments(array.array('I', said))
        elif kind == b'F':
            self.flip()
        elif kind == b'D':
            self._open = None
        elif kind == b'Q':
            self._open = PacketAsk(self, *_unpacked(said))
        elif kind == b'P':
            with contextlib.suppress(Refusal):
                self.packet_numbered(*_unpacked(said[1:]), bytearray(said[0]))
        else:
            number, *cells, clear = _ASK.unpack(said)
            window = Window(*cells, bool(clear))
            if kind == b'M':
                self._open = Ask(self, number, window)
            else:
                with contextlib.suppress(Refusal):
                    self.ask_numbered(number, window)

    @contextlib.contextmanager
    def _written_down(self, kind: bytes, said: bytes = b'', flush: bool = True) -> Iterator[None]:
        """Writes a call down, and then it is made, alone. An interrupt between the two leaves the file ahead."""
        with self._lock:
            if not self._playing:
                self._ready()
                self._ahead = True
                if self._since > _SNAPSHOT_AFTER:
                    self._put(self._snapshot(), flush)
                    self._since = 0
                self._put(_record(kind, said), flush)
            yield
            self._ahead = False

    def _ready(self) -> None:
        """The board takes a call: its file is open, this process has it, and it says no more than was done."""
        if self._file is None:
            raise ValueError(f'the board of {self._path} is closed')
        if self._process != os.getpid():
            raise BoardInUse(f'the process that opened {self._path} has it, and this one was forked from it')
        if self._ahead:
            raise BoardInterrupted(f'a call was interrupted after it was written down in {self._path}: close the board and open it again')

    def _put(self, record: bytes, flush: bool) -> None:
        """Appends to the file; where it cannot be written the file is as it was, and the call is not made."""
        end = os.lseek(self._file, 0, os.SEEK_END)
        try:
            done = 0
            while done < len(record):
                done += os.write(self._file, record[done:])
            if flush:
                os.fsync(self._file)
        except OSError:
            os.ftruncate(self._file, end)
            self._ahead = False
            raise
        self._since += len(record)

    def close(self) -> None:
        """Flushes the file and lets it go, after the call under way; the board can be gone on with later."""
        with self._lock:
            if self._file is not None:
                with contextlib.suppress(OSError):
                    os.fsync(self._file)
                os.close(self._file)
                self._file = None

    def __enter__(self) -> BoardFile:
        return self

    def __exit__(self, kind: Any, why: Any, trace: Any) -> None:
        self.close()

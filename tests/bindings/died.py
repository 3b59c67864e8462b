"""A bench that dies at every step, starts again and goes on: every count is filed once, by asks of both kinds. And files that are cut, damaged
or of an earlier version."""
import os
import pathlib
import struct
import sys
import tempfile

import plavotesk
from plavotesk import (BoardDamaged, BoardFile, BoardInterrupted, BoardInUse, BufferTooShort, Format, Item, PacketAsk, PacketInputs, Window,
                       boardfile)

COUNTERS = 8
PARTICLES = 10
ALL = Window(0, COUNTERS - 1, 0, 0, True)
HALVES = PacketInputs(1, [Item(address, 3, 0, 0, True, True, False, Format.INT24) for address in (0, 4)], 0, 0, 59)


def filed(sheet):
    """The sums of a sheet by their ask: a line each."""
    lines = sheet.read_text().splitlines() if sheet.exists() else []
    return {int(number): int(total) for number, total in (line.split() for line in lines)}


def put(sheet, text):
    """The sheet in its place, whole: a bench that dies as it writes leaves the one before."""
    new = sheet.with_suffix('.new')
    file = boardfile.os.open(new, os.O_WRONLY | os.O_CREAT | os.O_TRUNC)
    boardfile.os.write(file, text.encode())
    boardfile.os.fsync(file)
    os.close(file)
    boardfile.os.replace(new, sheet)


def counted(ask):
    """What an ask answers for the sheet: its sum, or the counts in its packet, which are its total."""
    answer = ask.answer()
    if not isinstance(ask, PacketAsk):
        return answer.sum
    data = next(plavotesk.packets(answer.packet)).data
    counts = [plavotesk.int24_count(int.from_bytes(data[place:place + 3], 'big')) for place in range(1, len(data), 3)]
    assert sum(counts) == answer.total and len(counts) == 2, (counts, answer)
    return sum(counts)


def file_it(sheet, asked):
    """Files the sum of an ask, once under its number, and then says so to the board."""
    with asked as ask:
        sums = filed(sheet) | {ask.number: counted(ask)}
        put(sheet, ''.join(f'{number} {total}\n' for number, total in sums.items()))


def bench(folder):
    """Feeds particles, flips, asks by packets and windows in turn and files, from wherever an earlier one died."""
    sheet = folder / 'sheet'
    with BoardFile(folder / 'board', COUNTERS) as board:
        if board.open_ask:
            file_it(sheet, board.open_ask)
        while True:
            done = sum(filed(sheet).values())
            if done == PARTICLES:
                return
            fed = done + sum(board.memory)
            board.increments([i % COUNTERS for i in range(fed, min(fed + 4, PARTICLES))])
            board.flip()
            file_it(sheet, board.ask_packet(HALVES) if board.next_number % 2 else board.ask(ALL))


class Dying:
    """The system calls of a board's file and of the sheet; at one step the bench dies: before it, half way through it, or after it."""

    def __init__(self, step, how):
        self.step, self.how, self.seen = step, how, 0

    def __getattr__(self, name):
        return getattr(os, name)

    def _dies(self, call, torn):
        self.seen += 1
        if self.seen == self.step:
            if self.how == 'torn':
                torn()
            elif self.how == 'after':
                call()
            os._exit(9)
        return call()

    def write(self, file, text):
        return self._dies(lambda: os.write(file, text), lambda: os.write(file, text[:len(text) // 2]))

    def fsync(self, file):
        return self._dies(lambda: os.fsync(file), lambda: None)

    def replace(self, old, new):
        return self._dies(lambda: os.replace(old, new), lambda: None)


def lives(folder, step, how):
    """Runs a bench in a process of its own; whether it came to its end."""
    child = os.fork()
    if child == 0:
        boardfile.os = Dying(step, how)
        try:
            bench(folder)
        except BaseException as why:
            print(why, file=sys.stderr)
            os._exit(1)
        os._exit(0)
    status = os.waitstatus_to_exitcode(os.waitpid(child, 0)[1])
    assert status in (0, 9), (step, how, status)
    return status == 0


def died():
    """Every step, three ways, and twice in a row."""
    step = deaths = 0
    alive = False
    while not alive:
        step += 1
        for how in ('before', 'torn', 'after'):
            with tempfile.TemporaryDirectory() as name:
                folder = pathlib.Path(name)
                alive = lives(folder, step, how)
                deaths += not alive
                if not alive:
                    lives(folder, 2, how)
                while not lives(folder, 0, how):
                    pass
                sheet = filed(folder / 'sheet')
                assert sum(sheet.values()) == PARTICLES, (step, how, sheet)
    print(f'a bench that died at each of {step - 1} steps, {deaths} times: every count is filed once')


def cut_and_damaged():
    """A file cut at every length goes on from its last whole record; one that is damaged before its end is refused and left."""
    with tempfile.TemporaryDirectory() as name:
        path = pathlib.Path(name) / 'board'
        sums = {}
        with BoardFile(path, COUNTERS) as board:
            sums[path.stat().st_size] = []
            for address in (1, 2, 3):
                board.increment(address)
                sums[path.stat().st_size] = board.memory
            board.flip()
            sums[path.stat().st_size] = board.memory
            try:
                BoardFile(path)
            except BoardInUse:
                pass
            else:
                raise AssertionError('two processes had one file')
        text = path.read_bytes()
        starts = sorted(sums)
        for length in range(starts[0], len(text)):
            path.write_bytes(text[:length])
            with BoardFile(path) as board:
                whole = max(size for size in starts if size <= length)
                assert board.memory == (sums[whole] or [0] * 2 * COUNTERS), length
        refused = 0
        for place in range(starts[-2]):
            spoiled = bytearray(text)
            spoiled[place] ^= 0x40
            path.write_bytes(spoiled)
            try:
                BoardFile(path).close()
            except BoardDamaged:
                refused += 1
                assert path.read_bytes() == spoiled
        assert refused == starts[-2], refused
    print('a file cut at every length goes on; one damaged at any byte before its last record is refused')


class Interrupting:
    """The system calls of a board's file; an interrupt comes at one step, before it or after it."""

    def __init__(self, step, how):
        self.step, self.how, self.seen = step, how, 0

    def __getattr__(self, name):
        return getattr(os, name)

    def write(self, file, text):
        self.seen += 1
        if self.seen == self.step and self.how == 'before':
            raise KeyboardInterrupt
        done = os.write(file, text if self.seen != self.step or self.how == 'after' else text[:len(text) // 2])
        if self.seen == self.step:
            raise KeyboardInterrupt
        return done


def interrupted():
    """An interrupt between a record and its call: the board takes no call, and opened again it is where the file is."""
    for how, packet in ((how, packet) for how in ('before', 'half', 'after') for packet in (False, True)):
        with tempfile.TemporaryDirectory() as name:
            path = pathlib.Path(name) / 'board'
            board = BoardFile(path, COUNTERS)
            board.increments([1, 2])
            board.flip()
            ask = board.ask_packet(HALVES) if packet else board.ask(ALL)
            boardfile.os = Interrupting(1, how)
            try:
                ask.answer()
                raise AssertionError('no interrupt')
            except KeyboardInterrupt:
                pass
            finally:
                boardfile.os = os
            for call in (ask.answer, board.flip, lambda: board.increment(1), lambda: board.increments([1]), ask.give_up):
                try:
                    call()
                    raise AssertionError('a call on a board that is behind its file')
                except BoardInterrupted:
                    pass
            board.close()
            with BoardFile(path) as board:
                assert board.open_ask.answer()[-2:] == (2, how == 'after'), how
                board.open_ask.file()
                assert sum(board.memory) == 0
    print('an interrupt between a record and its call: opened again, every count is filed once')


def forked():
    """A process that was forked from a bench makes no call on its board."""
    with tempfile.TemporaryDirectory() as name, BoardFile(pathlib.Path(name) / 'board', COUNTERS) as board:
        child = os.fork()
        if child == 0:
            try:
                board.increment(1)
            except BoardInUse:
                os._exit(0)
            os._exit(1)
        assert os.waitstatus_to_exitcode(os.waitpid(child, 0)[1]) == 0
        board.increment(1)
        assert sum(board.memory) == 1


def unknown():
    """A record of a kind that this version does not know: the file is refused and left."""
    with tempfile.TemporaryDirectory() as name:
        path = pathlib.Path(name) / 'board'
        BoardFile(path, COUNTERS).close()
        text = path.read_bytes() + boardfile._record(b'Z', b'later')
        path.write_bytes(text)
        try:
            BoardFile(path)
            raise AssertionError('a record that nobody knows')
        except BoardDamaged:
            assert path.read_bytes() == text


def kept():
    """A packet ask that was answered is answered again from the file, by its records and by a snapshot, whatever was counted since; one into
    too little room is refused again as the file is opened."""
    for after in (boardfile._SNAPSHOT_AFTER, -1):
        with tempfile.TemporaryDirectory() as name:
            path = pathlib.Path(name) / 'board'
            boardfile._SNAPSHOT_AFTER, usual = after, boardfile._SNAPSHOT_AFTER
            with BoardFile(path, COUNTERS) as board:
                board.increments([1, 2, 5])
                board.flip()
                try:
                    board.packet_numbered(1, HALVES._replace(low=2), bytearray(16))
                    raise AssertionError('a packet in too little room')
                except BufferTooShort:
                    pass
                first = board.ask_packet(HALVES).answer()
                board.increments([3, 3])
                board.flip()
            for _ in range(2):
                with BoardFile(path) as board:
                    assert isinstance(board.open_ask, PacketAsk) and board.open_ask.number == 1
                    assert board.open_ask.answer() == first._replace(again=True), board.open_ask.answer()
                    assert sum(board.memory) == 2 and board.next_number == 2
                    board.flip()
            boardfile._SNAPSHOT_AFTER = usual
            with BoardFile(path) as board:
                assert board.open_ask.file() == first._replace(again=True)
            with BoardFile(path) as board:
                assert board.open_ask is None


def before():
    """A file of before there were packet asks, its state of ten words: it is gone on with, and the missing words are 0."""
    ask = struct.pack('<HIBBHB', 1, 0, COUNTERS - 1, 0, 0, 1)
    memory = struct.pack(f'<{2 * COUNTERS}I', *range(2 * COUNTERS))
    new, answered = struct.pack('<10Q', 2 * COUNTERS, 1, *[0] * 8), struct.pack('<10Q', 2 * COUNTERS, 1, 1, 1, 0, COUNTERS - 1, 0, 0, 1, 77)
    later = boardfile._record(b'M', ask) + boardfile._record(b'A', ask)
    for state, under_way, records, total in ((answered, ask, b'', 77), (new, b'', later, 28), (new, ask, b'', 28)):
        with tempfile.TemporaryDirectory() as name:
            path = pathlib.Path(name) / 'board'
            snapshot = boardfile._record(b'S', struct.pack('<I', 2 * COUNTERS) + memory + state + under_way)
            path.write_bytes(b'PLAVOTESK board 1\n' + snapshot + records)
            for _ in range(2):
                with BoardFile(path, COUNTERS) as board:
                    assert board.open_ask.answer().sum == total
            with BoardFile(path) as board:
                assert board.open_ask.file() == total and board.next_number == 2
                board.flip()
                packet = board.ask_packet(HALVES).answer()
            with BoardFile(path) as board:
                assert board.open_ask.file() == packet._replace(again=True) and packet.total == sum(range(COUNTERS, 2 * COUNTERS))


died()
cut_and_damaged()
interrupted()
forked()
unknown()
kept()
before()

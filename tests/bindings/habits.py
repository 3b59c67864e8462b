"""What a user of the Python package does without reading: threads, numbers of all sizes, buffers of all kinds, iterators, copies."""
import array
import copy
import mmap
import pickle
import sys
import tempfile
import threading

import plavotesk
from plavotesk import Format, Item, Message, PacketInputs, Refusal, Window

ALL = Window(0, 7, 0, 0, True)
EIGHT = Item(0, 7, 0, 0, True, True, False, Format.INT24)
PACKET = PacketInputs(1, [EIGHT], 0, 0, 59)


def refused(number, call):
    """The call is refused by this number."""
    try:
        call()
    except Refusal as refusal:
        assert refusal.number == number, (number, refusal)
        assert type(refusal) is plavotesk.REFUSALS[number]
        return refusal
    raise AssertionError(f'not refused by {number}')


def raises(kind, words, call):
    """The call raises this kind, and its words name what is wrong."""
    try:
        call()
    except kind as why:
        assert words in str(why), why
        return
    raise AssertionError(f'no {kind.__name__}')


def threads():
    """Increments from four threads, and asks between them: none is lost."""
    sys.setswitchinterval(1e-6)
    board = plavotesk.Histogram(8)
    each = 1500

    def feed(first):
        for i in range(each):
            board.increment((first + i) % 8)

    feeding = [threading.Thread(target=feed, args=(first,)) for first in range(4)]
    for thread in feeding:
        thread.start()
    sums = 0
    while any(thread.is_alive() for thread in feeding):
        board.flip()
        with board.ask(ALL) as ask:
            sums += ask.answer().sum
    for thread in feeding:
        thread.join()
    assert sums + sum(board.memory) == 4 * each, (sums, sum(board.memory))


def numbers():
    """All numbers are taken: what document 01 has a number for is refused by it, however large."""
    buffer = bytearray(16)
    for level in (8, 300, 2 ** 80, -1):
        refused(19, lambda: plavotesk.level_seconds(level))
    for second in (3600, 65536, 2 ** 80, -1):
        refused(19, lambda: plavotesk.second_beginning(second))
    for value in (2 ** 26, -2 ** 26, 2 ** 31, 2 ** 40, -2 ** 40):
        refused(8, lambda: plavotesk.code_pack(buffer, 0, value, 0))
    for drop in (1, 256, 2 ** 80, -1):
        refused(8, lambda: plavotesk.code_unpack(buffer, 0, drop))
    for at, missing in ((128, 1), (129, 0), (2 ** 63, 0), (2 ** 64, 0), (2 ** 80, 0)):
        assert refused(9, lambda: plavotesk.code_unpack(buffer, at, 0)).carried == missing
        refused(3, lambda: plavotesk.code_pack(buffer, at, 5, 0))
    for message in (Message(0, 256, 0), Message(0, 3, 2 ** 64), Message(0, 3, -1), Message(2 ** 14, 0, 0), Message(-1, 0, 0)):
        refused(7, lambda: plavotesk.message_write(buffer, message))
    for count in (2 ** 34, 2 ** 70):
        for call in (plavotesk.float16_code, plavotesk.float8_code, plavotesk.int24_code, plavotesk.log8_code):
            refused(12, lambda: call(count))
    refused(12, lambda: plavotesk.int24_count(2 ** 70))
    for place in (16, 2 ** 80, -1):
        refused(20, lambda: plavotesk.packet_header(buffer, place))
    assert buffer == bytes(16)
    board = plavotesk.Histogram(8)
    for address in (8, 2 ** 32, 2 ** 80, -1):
        refused(14, lambda: board.increment(address))
    assert board.increments([1, 2, 2 ** 80, 3]) == (2, 14)
    assert board.increments(address for address in (1, 2, 2 ** 80, 3)) == (2, 14)
    assert board.increments((1, -1)) == (1, 14)
    assert board.increments([]) == (0, 0)
    for number in (2, 65536, -1):
        refused(17, lambda: board.ask_numbered(number, ALL))
    for window in (ALL._replace(address=2 ** 80), ALL._replace(xsize=256), ALL._replace(ysize=-1), ALL._replace(ystride=2 ** 16)):
        refused(14, board.ask(window).answer)
        assert board.open_ask is None
    for counters in (0, -1, 262145, 2 ** 80):
        refused(13, lambda: plavotesk.Histogram(counters))
    for call in (lambda: plavotesk.packet_write(buffer, 2 ** 16, b''), lambda: plavotesk.float16_count(2 ** 16), lambda: plavotesk.float8_code(-1),
                 lambda: plavotesk.code_unpack(buffer, -1, 0), lambda: plavotesk.log8_counts(256), lambda: plavotesk.log8_counts(-1),
                 lambda: plavotesk.log8_code(-1)):
        raises(OverflowError, ' ', call)
    for wrong in (1.0, '1', None, b'1'):
        raises(TypeError, 'level must be', lambda: plavotesk.level_seconds(wrong))
        raises(TypeError, 'code must be', lambda: plavotesk.log8_counts(wrong))
        raises(TypeError, 'address must be', lambda: board.increment(wrong))
        raises(TypeError, 'address must be', lambda: board.increments([1, wrong]))
        raises(TypeError, 'xsize must be', lambda: board.ask(ALL._replace(xsize=wrong)))
        raises(TypeError, 'clear must be', lambda: board.ask(ALL._replace(clear=wrong)))
    raises(TypeError, 'capture must be', lambda: plavotesk.packet_find('text'))
    raises(TypeError, 'buffer must be', lambda: plavotesk.packet_write(b'no bytearray', 1, b''))


def packet_numbers():
    """The same of a packet ask: numbers of all sizes, and items by their fields or by their 64 bits."""
    board = plavotesk.Histogram(8)
    for flags in (4, 300, 2 ** 80, -1):
        refused(19, board.ask_packet(PACKET._replace(flags=flags)).answer)
        assert board.open_ask is None
    for level in (8, 300, 2 ** 80, -1):
        refused(19, board.ask_packet(PACKET._replace(initial=level)).answer)
    for second in (3600, 65536, 2 ** 80, -1):
        refused(19, board.ask_packet(PACKET._replace(second=second)).answer)
    for item in (EIGHT._replace(address=8), EIGHT._replace(address=2 ** 18), EIGHT._replace(address=2 ** 80), EIGHT._replace(address=-1),
                 EIGHT._replace(xsize=256), EIGHT._replace(ysize=-1), EIGHT._replace(ystride=2 ** 16)):
        refused(14, board.ask_packet(PACKET._replace(items=[EIGHT, item])).answer)
    for items in ([EIGHT._replace(add=True)], [EIGHT, EIGHT._replace(add=True)], [1 << 23], [1 << 26], [1 << 29]):
        refused(22, board.ask_packet(PACKET._replace(items=items)).answer)
    for count in (65, 1000):
        refused(23, board.ask_packet(PACKET._replace(items=[EIGHT] * count)).answer)
    for number in (2, 65536, -1):
        refused(17, lambda: board.packet_numbered(number, PACKET, bytearray(243)))
    refused(3, lambda: board.packet_numbered(1, PACKET, bytearray(13)))
    for inputs in (PACKET._replace(low=256), PACKET._replace(low=-1), PACKET._replace(items=[EIGHT._replace(format=4)]), PACKET._replace(items=[2 ** 64])):
        raises(OverflowError, ' ', lambda: board.ask_packet(inputs))
    for wrong in (1.0, '1', None):
        raises(TypeError, 'xsize must be', lambda: board.ask_packet(PACKET._replace(items=[EIGHT._replace(xsize=wrong)])))
        raises(TypeError, 'send must be', lambda: board.ask_packet(PACKET._replace(items=[EIGHT._replace(send=wrong)])))
        raises(TypeError, 'item must be', lambda: board.ask_packet(PACKET._replace(items=[wrong])))
        raises(TypeError, 'second must be', lambda: board.ask_packet(PACKET._replace(second=wrong)))
    raises(TypeError, 'buffer must be', lambda: board.packet_numbered(1, PACKET, bytes(243)))
    assert board.open_ask is None and board.next_number == 1
    for word in (0, EIGHT.word, 2 ** 48 - 1 - 0xff800000, 2 ** 64 - 1 - 0xff800000):
        assert Item.of(word).word == word and board.ask_packet(PACKET._replace(items=[word])).inputs.items == (word,)
        board.open_ask.give_up()
    assert [Item.of(word) for word in (1 << 23, 1 << 31, 2 ** 64 - 1)] == [None] * 3


def logarithms():
    """A logarithm byte is answered as a run of counts, which what went in lies in; None is the word for a byte that no count gives."""
    assert [plavotesk.log8_counts(code) for code in bytes([0, 7, 8, 9, 61])] == [(0, 0), None, (1, 1), None, (99, 107)]
    for count in (0, 1, 2, 98, 99, 107, 108, 10 ** 6, 2 ** 31 - 1):
        low, high = plavotesk.log8_counts(plavotesk.log8_code(count))
        assert type(low) is type(high) is int and low <= count <= high, (low, count, high)
    given = [counts for counts in map(plavotesk.log8_counts, range(256)) if counts]
    assert given[0] == (0, 0) and given[-1][1] == 2 ** 31 - 1
    assert all(before[1] + 1 == after[0] for before, after in zip(given, given[1:]))
    assert refused(12, lambda: plavotesk.log8_code(2 ** 31)).carried is None


def buffers():
    """Bytes, bytearrays, views, arrays and mapped files are lent as they are."""
    text = b'123456789'
    with tempfile.TemporaryFile() as file:
        file.write(text)
        file.flush()
        mapped = mmap.mmap(file.fileno(), 0, access=mmap.ACCESS_READ)
        for given in (text, bytearray(text), memoryview(text), memoryview(b'x' + text)[1:], array.array('B', text), mapped):
            assert plavotesk.checksum(given) == 0x29b1
        mapped.close()
    assert plavotesk.checksum(array.array('H', [1, 2, 3])) == plavotesk.checksum(array.array('H', [1, 2, 3]).tobytes())
    assert plavotesk.checksum(b'') == plavotesk.checksum(bytearray()) == 0xffff
    grown = bytearray(text)
    plavotesk.checksum(grown)
    grown += b'x'
    raises(TypeError, 'lie together', lambda: plavotesk.checksum(memoryview(text)[::2]))


def iterators():
    """Packets, codes, readings and rates, one after the other."""
    capture = bytearray(200)
    capture[0:4] = b'\xbe\xba\xca\xfe'
    written = plavotesk.packet_write(memoryview(capture)[50:], 0x301, b'first')
    plavotesk.packet_write(memoryview(capture)[50 + written:], 0x302, b'')
    plavotesk.packet_write(memoryview(capture)[100:], 0x303, b'third')
    assert [(p.place, p.apid, bytes(p.data), p.skipped) for p in plavotesk.packets(capture)] == [
        (50, 0x301, b'first', 50), (65, 0x302, b'', 0), (100, 0x303, b'third', 25)]
    assert plavotesk.packet_find(capture, 51) == (65, 14)
    assert refused(20, lambda: plavotesk.packet_find(capture, 101)).carried == 99
    assert str(refused(20, lambda: plavotesk.packet_find(capture, 300))) == 'refused 20: no packet (0 bytes skipped)'
    refused(1, lambda: list(plavotesk.packets(bytes(65537))))
    buffer, at, said = bytearray(64), 3, [0, 1, 15, 16, 100, 5000]
    for value in said:
        at = plavotesk.code_pack(buffer, at, value, 0)
    for given in (buffer, bytes(buffer), memoryview(buffer)):
        assert list(plavotesk.codes(given, 6, 0, 3)) == [0, 1, 15, 16, 99, 5023], list(plavotesk.codes(given, 6, 0, 3))
        assert [reading.low <= value <= reading.high for value, reading in zip(said, plavotesk.readings(given, 6, 0, 3))] == [True] * 6
        assert [rate.seconds for rate in plavotesk.rates(given, 6, 0, 1, 3)] == [5.0] * 6
    assert refused(9, lambda: list(plavotesk.codes(b'\xff', 1, 0))).carried == 9


def cut_codes():
    """A packet's codes cut by one bit and cut by many are told apart, one by one and in a row; no other refusal carries bits."""
    data, at, said = bytearray(5), 0, [0, 0, 0, 0, 67108863]
    for value in said:
        at = plavotesk.code_pack(data, at, value, 0)
    packet = bytearray(15)
    plavotesk.packet_write(packet, 0x301, data)
    data = plavotesk.packet_payload(packet, 0)
    for left, missing, words in ((4, 1, 'at least 1 more bit is missing'), (3, 9, 'at least 9 more bits are missing'),
                                 (1, 5, 'at least 5 more bits are missing'), (0, 0, 'the position lies past the end')):
        cut = data[:left]
        for call in (lambda: plavotesk.code_unpack(cut, 4, 0), lambda: plavotesk.reading(cut, 4, 0), lambda: plavotesk.rate(cut, 4, 0, 1)):
            refusal = refused(9, call)
            assert (refusal.carried, str(refusal)) == (missing, f'refused 9: bits ran out ({words})'), refusal
    for left, missing in ((4, 1), (3, 9), (1, 5)):
        cut = data[:left]
        for run in (plavotesk.codes(cut, 5, 0), plavotesk.readings(cut, 5, 0), plavotesk.rates(cut, 5, 0, 1)):
            assert len([next(run) for _ in range(4)]) == 4
            assert refused(9, lambda: next(run)).carried == missing
    for number, given, drop in ((8, b'\0', 1), (8, b'', 1), (10, b'\x80', 0), (11, b'\xff\xff', 0)):
        assert refused(number, lambda: plavotesk.code_unpack(given, 0, drop)).carried is None
        assert refused(number, lambda: plavotesk.reading(given, 0, drop)).carried is None
        assert refused(number, lambda: plavotesk.rate(given, 0, drop, 1)).carried is None
    assert refused(8, lambda: plavotesk.reading(b'\xe0', 0, 0)).carried is None
    assert refused(19, lambda: plavotesk.rate(b'\0', 0, 0, 8)).carried is None
    assert refused(9, lambda: plavotesk.rate(b'', 0, 0, 8)).carried == 1


def copies():
    """A board cannot be copied or pickled; a refusal can."""
    board = plavotesk.Histogram(2)
    for call in (copy.copy, copy.deepcopy, pickle.dumps):
        raises(TypeError, 'a board cannot be', lambda: call(board))
    again = pickle.loads(pickle.dumps(plavotesk.NoPacket(7)))
    assert (again.number, again.carried, str(again)) == (20, 7, 'refused 20: no packet (7 bytes skipped)')
    again = pickle.loads(pickle.dumps(plavotesk.BitsRanOut(3)))
    assert (again.number, again.carried, str(again)) == (9, 3, 'refused 9: bits ran out (at least 3 more bits are missing)')


def dear_mistake():
    """300 counts, a lost answer, the same lines again: nothing is lost in silence."""
    board = plavotesk.Histogram(8)
    board.increments([i % 8 for i in range(300)])
    board.flip()

    def lost():
        with board.ask(ALL) as ask:
            ask.answer()
            raise TimeoutError

    raises(TimeoutError, '', lost)
    raises(plavotesk.AskStillOpen, 'still open', lost)
    with board.open_ask as ask:
        assert ask.answer() == (300, True)
    assert board.open_ask is None and board.next_number == 2
    ask = board.ask(ALL)
    assert board.ask_numbered(2, ALL) == (0, False) == board.ask_numbered(3, ALL)
    refused(17, ask.answer)
    assert board.open_ask is ask
    ask.give_up()
    assert board.open_ask is None
    board.increment(0)
    board.flip()
    with board.ask(ALL) as ask:
        ask.give_up()
    assert board.next_number == 4 and sum(board.memory) == 1


def dear_packet():
    """300 counts, a lost packet, particles since, the same lines again: nothing is lost in silence, and nothing is filed twice."""
    board = plavotesk.Histogram(8)
    board.increments([i % 8 for i in range(300)])
    board.flip()
    items = [EIGHT._replace(xsize=3), EIGHT._replace(address=4, xsize=3, format=Format.PACKED)]
    packets = []

    def lost():
        with board.ask_packet(PacketInputs(1, items, 0, 0, 59)) as ask:
            packets.append(ask.answer().packet)
            raise TimeoutError

    raises(TimeoutError, '', lost)
    raises(plavotesk.AskStillOpen, 'packet ask 1', lost)
    raises(plavotesk.AskStillOpen, 'packet ask 1', lambda: board.ask(ALL))
    board.increments([0, 1, 2])
    board.flip()
    items.clear()
    with board.open_ask as ask:
        answer = ask.answer()
        packets.append(answer.packet)
        assert answer[1:] == (300, True) and packets[0] == packets[1]
    assert board.open_ask is None and board.next_number == 2
    # the packet is found by its checksum, an integer is the count, and a packed count is a band that what went in lies in
    packet = next(plavotesk.packets(b'\xbe\xba\xca\xfe' + answer.packet))
    assert (packet.place, packet.apid, packet.data[0]) == (4, 0x301, 4)
    reading, _next = plavotesk.reading(packet.data, 32, drop=0)
    assert plavotesk.int24_count(int.from_bytes(packet.data[1:4], 'big')) == 152 and reading.low <= 148 <= reading.high
    with board.ask(ALL) as ask:
        raises(plavotesk.AskStillOpen, 'ask 2', lambda: board.ask_packet(PACKET))
        assert ask.answer().sum == 3
    ask = board.ask_packet(PACKET)
    assert board.ask_numbered(3, ALL) == (0, False)
    refused(18, ask.answer)
    assert board.ask_numbered(4, ALL) == (0, False)
    refused(17, ask.answer)
    assert board.open_ask is ask
    ask.give_up()
    assert board.ask_packet(PACKET._replace(items=(item for item in [EIGHT]))).file().total == 0
    assert board.open_ask is None and board.next_number == 6
    board.increment(0)
    board.flip()
    for inputs, number in ((PACKET, None), (PACKET._replace(flags=4), 19)):
        with board.ask_packet(inputs) as ask:
            refused(number, ask.answer) if number else ask.give_up()
    assert board.open_ask is None and board.next_number == 6 and sum(board.memory) == 1
    # one that was too large, tried once more after a flip, is open again until it is filed
    board.increments([7] * 1024)
    board.flip()
    chain = [EIGHT._replace(xsize=0, ysize=255, address=7, clear=False, send=i == 63, add=i > 0) for i in range(64)]
    ask = board.ask_packet(PACKET._replace(items=chain))
    refused(12, ask.answer)
    other = board.ask(ALL)
    raises(plavotesk.AskStillOpen, 'ask 6', ask.answer)
    other.give_up()
    board.flip()
    assert ask.answer()[1:] == (0, False) and board.open_ask is ask
    ask.file()
    assert ask.answer()[1:] == (0, True) and board.open_ask is None and board.next_number == 7


for check in (threads, numbers, packet_numbers, logarithms, buffers, iterators, cut_codes, copies, dear_mistake, dear_packet):
    check()
    print(f'{check.__name__}: as they should be')

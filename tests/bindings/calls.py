"""Every call of the Python binding on document 01's cases and on refusals, a line each; the Rust binding prints the same."""
import plavotesk
from plavotesk import Format, Item, Message, PacketInputs, Refusal, Window


def line(name, call, said=str):
    """A line: the call, and what it answered or why not."""
    try:
        print(f'{name}: {said(call())}')
    except Refusal as refusal:
        print(f'{name}: {refusal}')


def pair(values):
    """Two values beside each other."""
    return f'{values[0]} {values[1]}'


def packets():
    print(f'checksum: {plavotesk.checksum(b"123456789"):04x}')
    capture = bytearray([0xee] * 30)
    line('write', lambda: plavotesk.packet_write(memoryview(capture)[7:], 0x0301, b'counts'))
    print(f'capture: {capture.hex()}')
    line('find', lambda: plavotesk.packet_find(capture), pair)
    line('find nothing', lambda: plavotesk.packet_find(capture[:22]), pair)
    line('find in too much', lambda: plavotesk.packet_find(bytes(65537)), pair)
    line('header', lambda: plavotesk.packet_header(capture, 7), pair)
    line('header elsewhere', lambda: plavotesk.packet_header(capture, 8), pair)
    print(f'payload: {plavotesk.packet_payload(capture, 7).hex()}')
    print(f'payload elsewhere: {plavotesk.packet_payload(capture, 8).hex()}')
    line('write too much', lambda: plavotesk.packet_write(capture, 1, bytes(8188)))
    line('write into too little', lambda: plavotesk.packet_write(memoryview(capture)[:9], 1, b''))


def messages():
    buffer = bytearray([0xee] * 12)
    line('write message', lambda: plavotesk.message_write(buffer, Message(0x1234, 2, 0xdeadbeef)))
    print(f'message: {buffer.hex()}')

    def said(read):
        message, used = read
        return f'{message.address:x} {message.tag} {message.value:x} {used}'

    line('read message', lambda: plavotesk.message_read(buffer), said)
    line('read cut message', lambda: plavotesk.message_read(buffer[:9]), said)
    line('read no message', lambda: plavotesk.message_read(bytes(4)), said)
    buffer[5] ^= 1
    line('read damaged message', lambda: plavotesk.message_read(buffer), said)
    line('write stray bits', lambda: plavotesk.message_write(buffer, Message(0, 0, 1)))
    line('write message into too little', lambda: plavotesk.message_write(memoryview(buffer)[:5], Message(0, 0, 0)))


def reads(answer):
    """What a reading says."""
    reading, position = answer
    return (f'exactly {reading.low:.1f}' if reading.exact else f'{reading.low:.1f} to {reading.high:.1f}') + f' {position}'


def rates(answer):
    """What a rate says."""
    rate, position = answer
    return f'{rate.low:.3f} to {rate.high:.3f} over {rate.seconds:.1f} {position}'


def codes():
    cases = [(0, 0), (5, 0), (-16, 0), (32, 0), (100, 0), (3, 3), (4, 3), (33554431, 0), (33554432, 0), (67108863, 0), (67108864, 0),
             (-67108863, 3), (5, 1)]
    for value, drop in cases:
        buffer = bytearray([0xff] * 4)
        line(f'pack {value} drop {drop}', lambda: plavotesk.code_pack(buffer, 3, value, drop))
        print(f'bits: {buffer.hex()}')
        line('unpack', lambda: plavotesk.code_unpack(buffer, 3, drop), pair)
        line('reading', lambda: plavotesk.reading(buffer, 3, drop), reads)
        line('rate', lambda: plavotesk.rate(buffer, 3, drop, 1), rates)
    line('pack into nothing', lambda: plavotesk.code_pack(bytearray(), 0, 5, 0))
    line('unpack nothing', lambda: plavotesk.code_unpack(b'', 0, 0), pair)
    line('rate at level 8', lambda: plavotesk.rate(b'\0', 0, 0, 8), rates)
    line('rate of a cut code at level 8', lambda: plavotesk.rate(b'\xff', 0, 0, 8), rates)
    line('unpack a redundant zero', lambda: plavotesk.code_unpack(b'\x80', 0, 0), pair)
    line('reading of a redundant zero', lambda: plavotesk.reading(b'\x80', 0, 0), reads)
    line('rate of a redundant zero', lambda: plavotesk.rate(b'\x80', 0, 0, 1), rates)
    for at in (8, 9, 1 << 63, (1 << 64) - 1):
        line(f'unpack at {at}', lambda: plavotesk.code_unpack(b'\0', at, 0), pair)


def cut_packet():
    """A packet with four counts of 0 and one of 67,108,863, 33 bits. Its data cut by one bit and cut by many are told apart, by whatever reads
    them; where nothing is left the position lies past the end."""
    data, packet, at = bytearray(5), bytearray(15), 0
    for count in (0, 0, 0, 0, 67108863):
        at = plavotesk.code_pack(data, at, count, 0)
    plavotesk.packet_write(packet, 0x0301, data)
    data = plavotesk.packet_payload(packet, 0)
    for left in (5, 4, 3, 2, 1, 0):
        line(f'unpack from {left} of {len(data)} bytes', lambda: plavotesk.code_unpack(data[:left], 4, 0), pair)
        line(f'reading from {left} of {len(data)} bytes', lambda: plavotesk.reading(data[:left], 4, 0), reads)
        line(f'rate from {left} of {len(data)} bytes', lambda: plavotesk.rate(data[:left], 4, 0, 1), rates)


def cut_everywhere(drop, bits):
    """The bits missing of the longest code, cut before its first bit, before its second, and so on to its last."""
    missing = []
    for before in range(bits):
        left = (before + 7) // 8
        code, at = bytearray(5), 8 * left - before
        plavotesk.code_pack(code, at, 67108863, drop)
        try:
            plavotesk.code_unpack(code[:left], at, drop)
        except plavotesk.BitsRanOut as refusal:
            missing.append(refusal.carried)
    print(f'bits missing with drop {drop}:', *missing)


def counts():
    for count in (8191, 8193, 1 << 27):
        line(f'float16 of {count}', lambda: plavotesk.float16_code(count))
    print(f'float16 8192: {plavotesk.float16_count(8192)}')
    for count in (100, 1 << 34):
        line(f'float8 of {count}', lambda: plavotesk.float8_code(count))
    print(f'float8 36: {plavotesk.float8_count(36)}')
    for count in (16777215, 16777216):
        line(f'int24 of {count}', lambda: plavotesk.int24_code(count))
        line(f'int24 {count}', lambda: plavotesk.int24_count(count))
    for count in (0, 1, 100, 2147483647, 2147483648, 1 << 40):
        line(f'log8 of {count}', lambda: plavotesk.log8_code(count))
    for code in (0, 7, 8, 9, 61, 255):
        given = plavotesk.log8_counts(code)
        print(f'log8 {code}: ' + ('no count' if given is None else f'{given[0]} to {given[1]}'))
    for level in (0, 7, 8):
        line(f'level {level}', lambda: plavotesk.level_seconds(level))
    for second in (0, 59, 3600):
        line(f'beginning {second}', lambda: plavotesk.second_beginning(second))
        line(f'ending {second}', lambda: plavotesk.second_ending(second))


def sums(answer):
    """What an ask says."""
    return f'{answer.sum} {"again" if answer.again else "new"}'


def histogram():
    def fed(answer):
        return f'{answer.count} counted, ended by {answer.ended}'

    cells = Window(0, 1, 0, 0, True)
    line('open 0', lambda: plavotesk.Histogram(0))
    line('open 262145', lambda: plavotesk.Histogram(262145))
    board = plavotesk.Histogram(2)
    line('ask 0', lambda: board.ask_numbered(0, cells), sums)
    for address in (0, 0, 0, 2):
        line(f'increment {address}', lambda: board.increment(address), lambda _: 'counted')
    print(f'memory: {board.memory}')
    board.flip()
    print(f'next number: {board.next_number}')
    ask = board.ask(cells)
    line(f'ask {ask.number}', ask.answer, sums)
    line(f'ask {ask.number}', ask.answer, sums)
    ask.file()
    print(f'next number: {board.next_number}')
    ask = board.ask(cells)
    line(f'ask {ask.number}', ask.answer, sums)
    ask.give_up()
    line('ask 4', lambda: board.ask_numbered(4, cells), sums)
    line('ask 2 of another window', lambda: board.ask_numbered(2, cells._replace(clear=False)), sums)
    line('ask too far', board.ask(cells._replace(address=1)).answer, sums)
    print(f'next number: {board.next_number}')
    print(f'memory: {board.memory}')
    line('feed', lambda: board.increments([0, 0, 0, 2]), fed)
    line('feed nothing', lambda: board.increments([]), fed)
    print(f'memory: {board.memory}')


def packet_asks():
    def packed(answer):
        return f'{answer.written} bytes, total {answer.total}, {"again" if answer.again else "new"}'

    def asked(items, flags=2):
        return PacketInputs(1, items, flags, 5, 59)

    items = [Item(0, 1, 0, 0, True, True, False, Format.FLOAT16), Item(2, 0, 0, 0, True, False, False, Format.FLOAT16),
             Item(4, 1, 0, 0, False, True, True, Format.PACKED), Item(0, 6, 0, 0, False, True, False, Format.LOG8),
             Item(0, 1, 2, 1, True, True, False, Format.INT24)]
    chain = [Item(7, 0, 255, 0, False, i == 63, i > 0, Format.INT24) for i in range(65)]
    far = [items[0], Item(1 << 18, 255, 255, 65535, False, False, False, Format.FLOAT16)]
    board = plavotesk.Histogram(8)
    board.increments([0, 1, 1, 2, 2, 2, 5] + [7] * 1024)
    board.flip()
    for item in items:
        assert Item.of(item.word) == item
        print(f'item: {item.word:016x}')
    print(f'item too far: {far[1].word:016x}')
    buffer = bytearray(243)

    def packet(name, number, inputs, room=243):
        line(name, lambda: board.packet_numbered(number, inputs, memoryview(buffer)[:room]), packed)

    packet('packet of 65 items', 1, asked(chain))
    packet('packet whose first item adds', 1, asked(items[2:]))
    packet('packet with flags 4', 1, asked(items, 4))
    packet('packet too far', 1, asked(far))
    packet('packet too large', 1, asked(chain[:64]))
    packet('packet into too little', 1, asked(items), 17)
    packet('packet 1', 1, asked(items), 18)
    print(f'packet: {buffer[:18].hex()}')
    line('header', lambda: plavotesk.packet_header(buffer, 0), pair)
    print(f'payload: {plavotesk.packet_payload(buffer, 0).hex()}')
    buffer[:] = b'\xee' * 243
    packet('packet 1', 1, asked(items), 18)
    print(f'packet: {buffer[:18].hex()}')
    packet('packet 1 into too little', 1, asked(items), 17)
    packet('packet 1 with flags 4', 1, asked(items, 4))
    packet('packet 1 of other items', 1, asked(items[:4]))
    packet('packet 3', 3, asked(items))
    line('ask 1', lambda: board.ask_numbered(1, Window(0, 7, 0, 0, True)), sums)
    packet('packet of no items', 2, asked([], 0), 11)
    print(f'packet: {buffer[:11].hex()}')
    line('ask 3', lambda: board.ask_numbered(3, Window(0, 7, 0, 0, True)), sums)
    packet('packet 3', 3, asked(items))


print('version: as it should be')
packets()
messages()
codes()
cut_packet()
cut_everywhere(0, 29)
cut_everywhere(3, 26)
counts()
histogram()
packet_asks()

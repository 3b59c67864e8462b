"""A bench in Python: a board is opened, fed, flipped and asked over a link that times out, by windows and by a packet, and the count sheet
is right."""
import sys

import plavotesk
from plavotesk import Format, Item, PacketInputs, Window

COUNTERS = 64
PARTICLES = 300
WINDOWS = 4


def feed(board, counter):
    """Feeds the board a particle that hits a counter; whether it was counted."""
    try:
        board.increment(counter)
    except plavotesk.Refusal as refusal:
        print(f'a particle at counter {counter}: refused {refusal.number}')
        return False
    return True


def over_the_link(ask, tried):
    """One try over the link. The board answers, but the first answer to every odd ask is lost."""
    answer = ask.answer()
    return answer if ask.number % 2 == 0 or tried > 0 else None


def until_it_comes(ask):
    """Tries an ask until an answer comes."""
    tried = 0
    while (answer := over_the_link(ask, tried)) is None:
        print(f'ask {ask.number}: timed out')
        tried += 1
    return answer


def asked(board, window):
    """Asks for the sum of a window, and gives it to file."""
    with board.ask(window) as ask:
        answer = until_it_comes(ask)
        print(f'ask {ask.number}: {answer.sum}, {"again" if answer.again else "new"}')
        return answer.sum


def packet_asked(board, windows):
    """Asks for a packet with the counts of windows, three bytes each after one byte, and gives them to file."""
    items = [Item(*window, send=True, add=False, format=Format.INT24) for window in windows]
    with board.ask_packet(PacketInputs(low=1, items=items, flags=0, initial=0, second=59)) as ask:
        answer = until_it_comes(ask)
        print(f'ask {ask.number}: a packet of {len(answer.packet)} bytes, {answer.total} in all, {"again" if answer.again else "new"}')
        packet = next(plavotesk.packets(answer.packet))
        return [plavotesk.int24_count(int.from_bytes(packet.data[i:i + 3], 'big')) for i in range(1, len(packet.data), 3)]


def main():
    board = plavotesk.Histogram(COUNTERS)
    print(f'board opened: two pages of {COUNTERS} counters')
    counted = sum(feed(board, (i * i + 3 * i) % COUNTERS) for i in range(PARTICLES))
    counted += feed(board, COUNTERS)
    print(f'{PARTICLES + 1} particles fed, {counted} counted')
    board.flip()
    windows = [Window(16 * i, 15, 0, 0, True) for i in range(WINDOWS)]
    sheet = [asked(board, window) for window in windows[:2]] + packet_asked(board, windows[2:])
    print('count sheet')
    for i, filed in enumerate(sheet):
        print(f'  counters {16 * i} to {16 * i + 15}: {filed}')
    print(f'  total: {sum(sheet)}')
    print('every count is filed once' if sum(sheet) == counted else 'THE SHEET IS WRONG')
    sys.exit(0 if sum(sheet) == counted else 1)


main()

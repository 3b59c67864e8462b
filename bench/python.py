"""What the Python package costs: many increments in one call, and a code at a time over inputs of growing size."""
import array
import statistics
import time

import plavotesk


def took(work, rounds=9):
    """The median time of some work, in seconds."""
    times = []
    for _ in range(rounds):
        start = time.perf_counter()
        work()
        times.append(time.perf_counter() - start)
    return statistics.median(times)


def main():
    board = plavotesk.Histogram(64)
    given = [i % 64 for i in range(100_000)]
    lent = array.array('I', given)
    print('| Python | time |\n|---|---|')
    print(f'| 100,000 increments, an array | {1e3 * took(lambda: board.increments(lent)):.2f} ms |')
    print(f'| 100,000 increments, a list | {1e3 * took(lambda: board.increments(given)):.2f} ms |')
    print(f'| one increment | {1e9 * took(lambda: [board.increment(3) for _ in range(10_000)]) / 10_000:.0f} ns |')
    for count in (1_000, 10_000, 100_000, 1_000_000):
        buffer, at = bytearray(4 * count), 0
        for i in range(count):
            at = plavotesk.code_pack(buffer, at, i % 5000, 0)
        for name, kept in (('bytes', bytes(buffer)), ('a bytearray', buffer)):
            once = took(lambda: sum(plavotesk.codes(kept, count, 0)), 3)
            print(f'| a code of {count:,}, in {name} of {len(buffer):,} bytes | {1e9 * once / count:.0f} ns |')


main()

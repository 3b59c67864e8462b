"""Why a call was refused: document 01's number, by name."""
from __future__ import annotations


class Refusal(Exception):
    """A refused call: document 01's `number`, and what the refusal carries (`carried`: the bytes skipped, with 20; with 9 the bits missing,
    the least number with which some code could be completed from what was read, 1 at the end exactly, 0 from any other position past it;
    else None). Nothing was changed. Each number has a class of its own below, so that one can be caught by name."""

    number: int = 0
    words: str = 'no refusal of document 01'

    def __init__(self, carried: int | None = None) -> None:
        super().__init__(carried)
        self.carried = carried

    def __str__(self) -> str:
        more = '' if self.carried is None else f' ({_told(self.number, self.carried)})'
        return f'refused {self.number}: {self.words}{more}'

    def __reduce__(self) -> tuple:
        return type(self), (self.carried,)


def _told(number: int, carried: int) -> str:
    """What a refusal carries, in words."""
    if number != BitsRanOut.number:
        return f'{carried:,} bytes skipped'
    if carried == 0:
        return 'the position lies past the end'
    return f'at least {carried} more {"bit is" if carried == 1 else "bits are"} missing'


def _named(name: str, number: int, words: str) -> type[Refusal]:
    """The class of one refusal."""
    return type(name, (Refusal,), {'__module__': __name__, '__doc__': f'Refusal {number}: {words}.', 'number': number, 'words': words})


CaptureTooLong = _named('CaptureTooLong', 1, 'capture over 65,536 bytes')
TooMuchData = _named('TooMuchData', 2, 'packet data over 8,187 bytes')
BufferTooShort = _named('BufferTooShort', 3, 'buffer too short to write into')
WrongMark = _named('WrongMark', 4, 'message mark wrong')
CutShort = _named('CutShort', 5, 'message cut short')
WrongChecksum = _named('WrongChecksum', 6, 'message checksum wrong')
WrongMessage = _named('WrongMessage', 7, 'message address, tag or stray bits')
OutsideTheRule = _named('OutsideTheRule', 8, 'number or drop outside the rule')
BitsRanOut = _named('BitsRanOut', 9, 'bits ran out')
RedundantZero = _named('RedundantZero', 10, 'redundant zero')
RunTooLong = _named('RunTooLong', 11, 'run of ones too long')
CountTooLarge = _named('CountTooLarge', 12, 'count too large for the format')
WrongMemory = _named('WrongMemory', 13, "memory length odd, outside 2 to 524,288, or not the state's 2N; state words too few")
WrongAddress = _named('WrongAddress', 14, "address, or a window's last cell, not under N")
CounterFull = _named('CounterFull', 15, 'counter full')
WordAboveFull = _named('WordAboveFull', 16, 'a visited word above 67,108,863')
AskOutOfTurn = _named('AskOutOfTurn', 17, 'ask number neither last nor next')
OtherWindow = _named('OtherWindow', 18, 'last number, other window or input, or the other kind of ask')
OutOfRange = _named('OutOfRange', 19, 'second, level or flags out of range')
NoPacket = _named('NoPacket', 20, 'no packet')
ForbiddenItem = _named('ForbiddenItem', 22, 'forbidden item: sum, res or enc not 0, or a on the first or after one with t')
TooManyItems = _named('TooManyItems', 23, 'over 64 items')

#: The class of each number.
REFUSALS: dict[int, type[Refusal]] = {kind.number: kind for kind in Refusal.__subclasses__()}


def accepted(number: int, carried: int | None = None) -> None:
    """Raises the refusal of a number, where it is one."""
    if number:
        raise REFUSALS[number](carried)

"""The proved calls of Plavotesk for benches written in Python: packets, messages, packed codes, count formats, the cadence and histogram
memory with numbered asks.

A bad input is refused by document 01's number, by an exception of its own (`plavotesk.NoPacket`, ..., all of them `plavotesk.Refusal`), and
changes nothing. A float or a string where a whole number belongs is a TypeError.

Calls may come from several threads; those on one board go one after the other.

The shared library is looked for at PLAVOTESK_LIBRARY, beside this package, and where bin/build puts it in a checkout, at the first call.
"""
from ._library import VERSION
from .board import PACKET_BYTES, STATE_WORDS, Ask, AskStillOpen, Fed, Histogram, PacketAnswer, PacketAsk, PacketWritten, Sum, Window
from .boardfile import BoardDamaged, BoardFile, BoardInterrupted, BoardInUse
from .calls import *
from .calls import Found, Header, Message, Packet, Rate, Reading
from .items import Format, Item, PacketInputs
from .refusals import *
from .refusals import REFUSALS, Refusal

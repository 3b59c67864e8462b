"""The shared library: found and loaded at the first call, not at import, so that help works without it."""
from __future__ import annotations

import ctypes
import os
import pathlib
import threading

#: The version of the C interface that this package speaks (PLV_VERSION of the header).
VERSION = 4

_u8, _u16, _u32, _u64 = ctypes.c_uint8, ctypes.c_uint16, ctypes.c_uint32, ctypes.c_uint64
_i32, _f64 = ctypes.c_int32, ctypes.c_double
_SLICE = [ctypes.c_void_p, ctypes.c_size_t]


def _to(*kinds: type) -> list:
    """References to numbers of these kinds."""
    return [ctypes.POINTER(kind) for kind in kinds]


_CALLS: dict[str, tuple[list, type | None]] = {
    'plv_version': ([], _u32),
    'plv_checksum': (_SLICE, _u16),
    'plv_packet_find': (_SLICE + _to(_u64, _u64), _u8),
    'plv_packet_header': (_SLICE + [_u64] + _to(_u16, _u16), _u8),
    'plv_packet_payload': (_SLICE + [_u64] + _to(_u64, _u64), None),
    'plv_packet_write': (_SLICE + [_u16] + _SLICE + _to(_u64), _u8),
    'plv_message_read': (_SLICE + _to(_u16, _u8, _u64, _u64), _u8),
    'plv_message_write': (_SLICE + [_u16, _u8, _u64] + _to(_u64), _u8),
    'plv_code_pack': (_SLICE + [_u64, _i32, _u8] + _to(_u64), _u8),
    'plv_code_unpack': (_SLICE + [_u64, _u8] + _to(_i32, _u64, _u8), _u8),
    'plv_reading': (_SLICE + [_u64, _u8] + _to(_f64, _f64, _u8, _u64, _u8), _u8),
    'plv_rate': (_SLICE + [_u64, _u8, _u8] + _to(_f64, _f64, _f64, _u64, _u8), _u8),
    'plv_float16_code': ([_u64] + _to(_u16), _u8),
    'plv_float16_count': ([_u16], _u64),
    'plv_float8_code': ([_u64] + _to(_u8), _u8),
    'plv_float8_count': ([_u8], _u64),
    'plv_int24_code': ([_u64] + _to(_u32), _u8),
    'plv_int24_count': ([_u32] + _to(_u32), _u8),
    'plv_log8_code': ([_u64] + _to(_u8), _u8),
    'plv_log8_counts': ([_u8] + _to(_u64, _u64, _u8), None),
    'plv_level_seconds': ([_u8] + _to(_u16), _u8),
    'plv_second_beginning': ([_u16] + _to(_u8), _u8),
    'plv_second_ending': ([_u16] + _to(_u8), _u8),
    'plv_histogram_open': (_SLICE + _SLICE, _u8),
    'plv_histogram_increment': (_SLICE + _SLICE + [_u32], _u8),
    'plv_histogram_increments': (_SLICE + _SLICE + _SLICE + _to(_u64, _u8), _u8),
    'plv_histogram_flip': (_SLICE + _SLICE, _u8),
    'plv_histogram_next': (_SLICE + _to(_u16), _u8),
    'plv_histogram_ask': (_SLICE + _SLICE + [_u16, _u32, _u8, _u8, _u16, _u8] + _to(_u64, _u8), _u8),
    'plv_histogram_packet': (_SLICE + _SLICE + [_u16, _u8] + _SLICE + [_u8, _u8, _u16] + _SLICE + _to(_u64, _u64, _u8), _u8),
}


def _places() -> list[pathlib.Path]:
    """Where the library may be: the caller's word, beside this package, or where bin/build puts it in a checkout."""
    said = os.environ.get('PLAVOTESK_LIBRARY')
    if said:
        return [pathlib.Path(said)]
    here = pathlib.Path(__file__).resolve().parent
    return [here / 'libplavotesk.so', here.parents[2] / 'target' / 'shared' / 'libplavotesk.so']


def _load() -> ctypes.CDLL:
    """The library with the types of its calls; a sentence that says what to run where it is not there."""
    places = _places()
    found = [place for place in places if place.exists()]
    if not found:
        looked = ' or '.join(str(place) for place in places)
        raise ImportError(f'the library of plavotesk is not at {looked}: run bin/build in a checkout, or set PLAVOTESK_LIBRARY to the file')
    try:
        loaded = ctypes.CDLL(str(found[0]))
    except OSError as why:
        raise ImportError(f'the library of plavotesk at {found[0]} cannot be loaded; it is built for x86-64 Linux: {why}') from None
    version = getattr(loaded, 'plv_version', None)
    has = version() if version else 0
    if has != VERSION:
        raise ImportError(f'the library of plavotesk at {found[0]} has version {has}, and this package speaks version {VERSION}: '
                          f'run bin/build in the checkout of this package')
    for name, (given, answer) in _CALLS.items():
        call = getattr(loaded, name)
        call.argtypes, call.restype = given, answer
    return loaded


_lock = threading.Lock()
_loaded: ctypes.CDLL | None = None


def library() -> ctypes.CDLL:
    """The library, loaded once."""
    global _loaded
    if _loaded is None:
        with _lock:
            if _loaded is None:
                _loaded = _load()
    return _loaded

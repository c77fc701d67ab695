"""Clients of a cluster of timers, over libtimers_cluster.so. client.h says what each call does."""
import collections
import ctypes
import pathlib

NOTHING, ANSWER, FOREIGN, EXPIRED, CUT, WRONG = range(6)
Place = collections.namedtuple("Place", "record line number chain")
Line = collections.namedtuple("Line", "said text place")

_lib = ctypes.CDLL(str(pathlib.Path(__file__).resolve().parent / "build" / "libtimers_cluster.so"))
_PLACE, _NUMBER = ctypes.c_uint64 * len(Place._fields), ctypes.c_uint64
_lib.timers_client_open.restype = ctypes.c_void_p
for _asks in ("start", "stop", "restart"):
    getattr(_lib, f"timers_client_{_asks}").restype = ctypes.c_bool


class _Line(ctypes.Structure):
    _fields_ = [("text", ctypes.c_char_p), ("place", _PLACE)]


def shard_of(key, shards):
    return _lib.timers_shard(key.encode(), _NUMBER(shards))


class Client:
    """A client of one shard, with the calls start, stop, restart, waiting and close. `place` is that of the last line that was
    acted on, or None."""

    def __init__(self, workers, shard, client, place=None, window=1000):
        given = workers.encode(), shard.encode(), _NUMBER(client), _PLACE(*place) if place else None, _NUMBER(window)
        self._at = ctypes.c_void_p(_lib.timers_client_open(*given))
        if not self._at:
            raise ValueError(f"no addresses: {workers}")

    def __getattr__(self, call):
        return lambda *numbers: getattr(_lib, f"timers_client_{call}")(self._at, *map(_NUMBER, numbers))

    def next(self, seconds):
        line = _Line()
        said = _lib.timers_client_next(self._at, _NUMBER(int(1000 * seconds)), ctypes.byref(line))
        return Line(said, (line.text or b"").decode(), Place(*line.place) if line.text else None)

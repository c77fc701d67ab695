"""Desks: their ends, clients in threads, and memory. Random calls are in replay_test.py."""
import copy
import gc
import pickle
import threading
import tracemalloc

import timers.desk as td
from timers.desk import Desk, DeskError, Handle

try:
    import _testcapi
except ImportError:
    _testcapi = None
TABLES = [
    # made by tools/facts: tables of desks in Python
    td.WIDE, td.SMOOTH, td.SMALL,
]


def refused(status, call, *arguments):
    try:
        call(*arguments)
    except DeskError as error:
        assert error.status == status, (error.status, status)
    else:
        raise AssertionError(f"not refused: {status}")


def turn(desk):
    while (desk.serve_all() == td.OK) | desk.flush_all():
        pass


def end_with_the_block():
    """What is refused in words of Python's, and what is left of a desk whose block has ended."""
    with Desk(2, 100, 4, 4) as desk:
        line, other = desk.lines
        assert (line.client, other.client) == (0, 1)
        refused(td.NOT_FREED, desk.open, 0, 4)
        refused(td.NO_CLIENT, desk.stop_pending, 2)
        assert (desk.serve(0), desk.serve(2)) == (td.IDLE, td.NO_CLIENT)
        line.free()
        line = desk.open(0, 4)
        refused(td.OUT_OF_RANGE, desk.open, 0, 0)
        with Desk(2, 1, 1, 1) as stranger:
            stranger.lines[1].finish()
            refused(td.OTHER_LINE, desk.end, 1, stranger.lines[1])
    refused(td.NOT_OPEN, desk.reserve)
    assert line.abandoned and other.abandoned


def work(line, counts):
    sent = answered = expired = 0
    while expired < 300:
        if sent < 300 and sent - answered < 8 and sent - expired < 50:
            assert line.start(1 + sent % 7, sent) == sent + 1
            sent += 1
        word = line.receive()
        if word and word.kind == td.STARTED:
            answered += 1
            assert word.number == answered
        elif word:
            assert word.kind == td.EXPIRED and word.number == word.action + 1
            expired += 1
    counts.append(expired)


def threads(clients):
    counts = []
    with Desk(clients, 10000, 50, 8) as desk:
        workers = [threading.Thread(target=work, args=(line, counts)) for line in desk.lines]
        for worker in workers:
            worker.start()
        while any(worker.is_alive() for worker in workers):
            desk.serve_all(), desk.flush_all(), desk.advance(1)
        assert counts == [300] * clients and len(desk) == 0


def out_of_range(value, bits, call, *arguments, **named):
    try:
        call(*arguments, **named)
    except OverflowError as error:
        assert str(error) == f"{value} is not from 0 to 2^{bits} - 1", error
    else:
        raise AssertionError(f"not refused: {arguments} {named}")


def numbers_out_of_range():
    """No number is cut off: what has too many bits is refused, and so is a room that has."""
    for name in ("clients", "capacity", "timers", "requests", "first_tick"):
        fine = {"clients": 1, "capacity": 1, "timers": 1, "requests": 1, "table": 0}
        for wrong in (-1, 2**64, 2**64 + 1):
            out_of_range(wrong, 64, Desk, **{**fine, name: wrong})
    for wrong in (-1, 2**32, 2**32 + 1):
        out_of_range(wrong, 32, Desk, 1, 1, 1, 1, table=wrong)
    for timers, requests in ((2**64 - 1, 2), (2**64 - 2, 1), (2**63, 2**63)):
        for call in (td.room_for, lambda *room: Desk(1, 1, *room)):
            try:
                call(timers, requests)
            except OverflowError as error:
                assert str(error) == f"the room for {timers} timers and {requests} requests is not from 0 to 2^64 - 1"
            else:
                raise AssertionError(f"not refused: {timers} {requests}")
    assert td.room_for(2**64 - 2, 0) == 2**64 - 1
    for table in (len(TABLES), 2**32 - 1):
        refused(td.OUT_OF_RANGE, lambda table=table: Desk(1, 1, 1, 1, table=table))
    for clients in (0, td.CLIENTS + 1, 10**11, 2**64 - 1):
        refused(td.OUT_OF_RANGE, lambda clients=clients: Desk(clients, 1, 1, 1))
    for wrong in (-1, 2**64):
        out_of_range(wrong, 64, Handle, wrong, 1)
        out_of_range(wrong, 64, Handle, 1, wrong)
    with Desk(1, 1, 1, 1) as desk:
        calls = [desk.serve, desk.serve_all, desk.flush, desk.advance, desk.stop_pending, desk.pending, desk.outbox,
                 desk.line_freed, lambda value: desk.end(value, desk.lines[0]), lambda value: desk.open(0, value),
                 lambda value: desk.open(value, 1), lambda value: desk.lines[0].start(value, 1),
                 lambda value: desk.lines[0].restart_at(Handle(), 1, value)]
        for call in calls:
            for wrong in (-1, 2**64):
                out_of_range(wrong, 64, call, wrong)
        with Desk(1, 1, 1, 1, first_tick=16777214, table=td.SMALL) as clock:
            assert clock.advance(9) == 1 and desk.advance(9) == 9


def owns_what_it_holds():
    """No copy frees it a second time. What nothing refers to is freed, and what is made anew frees what it held."""
    class Named(Desk):
        pass

    desk = Named(2, 9, 4, 4)
    first, second = desk.lines
    for owner in (desk, first):
        for owned in (copy.copy, copy.deepcopy, pickle.dumps):
            try:
                owned(owner)
            except TypeError as error:
                assert "can't be copied or pickled" in str(error), error
            else:
                raise AssertionError(f"copied: {owner}")
    for made in (lambda: td.Line(), lambda: setattr(desk, "lines", [])):
        try:
            made()
        except (TypeError, AttributeError):
            pass
        else:
            raise AssertionError("a line was made, or the list of lines was exchanged")
    desk.lines.clear()
    del first, owner
    assert desk.line_freed(0) and not desk.line_freed(1)
    refused(td.OUT_OF_RANGE, lambda: desk.__init__(1, 1, 1, 1, table=len(TABLES)))
    assert not second.abandoned
    desk.__init__(2, 9, 4, 4)
    assert second.abandoned and not desk.line_freed(0)
    refused(td.OTHER_LINE, desk.end, 1, second)
    for wrong in (None, desk, Handle()):
        try:
            desk.end(1, wrong)
        except TypeError as error:
            assert str(error) == f"not a Line: {wrong}"
        else:
            raise AssertionError(f"ended: {wrong}")
    first, second = desk.lines
    desk.lines.append(desk)
    desk.itself = desk
    del desk, wrong
    gc.collect()
    assert second.abandoned
    empty = Desk.__new__(Desk)
    refused(td.NOT_OPEN, empty.reserve)
    assert empty.serve_all() == td.NOT_OPEN and len(empty) == 0


def refuse_memory():
    """Each allocation of each call is refused once, and nothing leaks or is lost but a word that was received."""
    if _testcapi is None:
        print("skipped: no _testcapi, which refuses memory")
        return
    refusals = 0
    tracemalloc.start()
    for call in (lambda: Desk(3, 9, 4, 400), lambda: desk.__init__(3, 9, 4, 400), lambda: desk.reserve(), lambda: desk.serve_all(),
                 lambda: line.start(2**40, 2**63), lambda: line.receive(), lambda: desk.open(1, 4), lambda: desk.close(),
                 lambda: desk.flush(0), lambda: line.finish(), lambda: desk.next(), lambda: line.free(), lambda: repr(line)):
        more, failed, begun = 0, True, tracemalloc.get_traced_memory()[0]
        while failed or more < 4:
            desk = Desk(2, 2000, 2000, 2000)
            line = desk.lines[0]
            desk.lines.pop().free()
            for number in range(60):
                line.start(2**40 + number, 2**63)
                if number < 9:
                    turn(desk)
            _testcapi.set_nomemory(more, more + 1)
            try:
                failed = call() == td.NO_MEMORY
            except MemoryError:
                failed = True
            except DeskError as error:
                assert error.status == td.NO_MEMORY
                failed = True
            finally:
                _testcapi.remove_mem_hooks()
            refusals += failed
            more += 1
            assert more < 999
            turn(desk)
            assert len(desk) in (0, 60, 61) and (desk.line_freed(1) or not failed)
        del desk, line
        gc.collect()
        assert tracemalloc.get_traced_memory()[0] < begun + 5000, tracemalloc.get_traced_memory()[0] - begun
    tracemalloc.stop()
    assert refusals > 20, refusals


class Number:
    """A whole number by `__index__` alone, which answers once."""

    def __init__(self, value):
        self.values = [value]

    def __index__(self):
        return self.values.pop()


def whole_numbers():
    with Desk(*map(Number, (2, 9, 4, 4, 5, td.SMALL))) as desk:
        line = desk.lines[1]
        assert len(desk.lines) == 2 and line.start(Number(3), Number(7)) == 1
        assert desk.serve(Number(1)) == td.OK and desk.flush(Number(1)) == 1
        word = line.receive()
        assert repr(word).startswith("timers.desk.Word(kind=1, reason=0, number=1, ")
        assert line.stop(Handle(Number(word.handle.place), Number(1))) == 2
        assert desk.serve_all(Number(9)) == td.OK and desk.pending(Number(1)) == 0 and desk.advance(Number(9)) == 9


assert Handle(1, 7) == Handle(1, 7) and hash(Handle(1, 7)) == hash(Handle(1, 7))
assert Handle(1, 7) not in (Handle(1, 8), Handle(2, 7), (1, 7))
assert (str(DeskError(td.NO_ROOM)), str(DeskError(99))) == ("the outbox has no room", "no status")
end_with_the_block()
threads(4)
numbers_out_of_range()
owns_what_it_holds()
whole_numbers()
refuse_memory()

"""The edges of Timers, its memory, what it refers to, and the end of the clock. Random calls are in replay_test.py."""
import contextlib
import copy
import gc
import pickle
import random
import sys
import threading
import tracemalloc
import weakref

import timers as module
from timers import (CLOCK_END, LAST, NO_MEMORY, NO_TABLE, NOT_OPEN, NOT_PENDING, OK, SMALL, SMALL_LAST, TOO_LATE,
                    WIDE, ZERO_INTERVAL, Handle, Timers, TimersError, desk)

try:
    import _testcapi
except ImportError:
    _testcapi = None


class Action:
    """An action with a number. `live` has the numbers of those that something refers to."""

    made, live = 0, set()

    def __init__(self):
        Action.made += 1
        self.number = Action.made
        Action.live.add(self.number)

    def __del__(self):
        Action.live.remove(self.number)


def refused(call, *arguments):
    try:
        call(*arguments)
    except TimersError as error:
        return error.status
    return OK


def raises(kind, call, *arguments):
    try:
        call(*arguments)
    except kind:
        return True
    return False


def text_of(kind, call, *arguments):
    try:
        call(*arguments)
    except kind as error:
        return str(error)
    return None


def meet_the_edges():
    """What is no number of 64 bits is refused, and nothing has changed; truth is not emptiness."""
    with Timers(first_tick=2**60 - 2) as timers:
        handle = timers.start(1, 2**64 - 1)
        calls = [timers.start, timers.start_at, lambda *two: timers.restart(handle, *two)]
        calls += [lambda *two: timers.restart_at(handle, *two), lambda *two: timers.set_at(handle, *two)]
        for call in calls + [lambda *two: timers.set_at(None, *two)]:
            for value in (2**64, -1):
                assert raises(OverflowError, call, value, 1)
            for value in (1.5, 1.0, "1", None):
                assert raises(TypeError, call, value, 1)
        for value in (2**64, -1):
            assert raises(OverflowError, timers.advance, value)
            assert raises(OverflowError, timers.catch_up, value, print)
            assert raises(OverflowError, lambda value=value: Timers(first_tick=value))
        assert raises(OverflowError, lambda: Timers(table=2**32))
        for value in (2**64, -1):
            assert raises(OverflowError, Handle, value, 1) and raises(OverflowError, Handle, 1, value)
        assert refused(timers.stop, Handle(handle.place, 2**64 - 1)) == NOT_PENDING
        assert raises(OverflowError, timers.reserve, 2**64) and raises(TypeError, timers.reserve, 1.0)
        assert refused(timers.reserve, 2**64 - 1) == NO_MEMORY
        assert refused(timers.start, 0, 1) == refused(timers.restart, handle, 0, 1) == ZERO_INTERVAL
        assert refused(timers.start, 2, 1) == TOO_LATE
        assert refused(timers.set_at, handle, 2**60, 1) == refused(timers.set_at, None, 2**60, 1) == TOO_LATE
        assert text_of(OverflowError, timers.start, 2**64, 1) == "18446744073709551616 is not from 0 to 2^64 - 1"
        assert text_of(OverflowError, lambda: Timers(table=-1)) == "-1 is not from 0 to 2^32 - 1"
        for owned in (copy.copy, copy.deepcopy, pickle.dumps):
            assert text_of(TypeError, owned, timers).endswith(" owns memory: it can't be copied or pickled")
        named = (timers.stop, timers.look, lambda h: timers.restart(h, 1), lambda h: timers.restart_at(h, 1))
        for wrong in (7, (handle.place, handle.serial)):
            assert all(text_of(TypeError, call, wrong) == f"not a Handle: {wrong}" for call in (*named, timers.__contains__))
        for none in (None, Handle()):
            assert none not in timers and all(refused(call, none) == NOT_PENDING for call in named)
        for call, *wrong in ((timers.start, 1), (timers.start_at, 1, 2, 3), (timers.restart, handle), (timers.set_at, handle, 1),
                             (timers.catch_up,), (timers.take,), (timers.now, 1), (Handle, 1, 2, 3), (Timers, 0, 1, 2)):
            assert raises(TypeError, call, *wrong)
        assert timers.look(handle) == (2**60 - 1, 1, 2**64 - 1) and len(timers) == 1
        assert timers.stop(handle) == 2**64 - 1
        assert not timers and len(timers) == 0 and timers.wakeup() is None
    assert not timers and refused(timers.start, 1, 1) == refused(timers.set_at, handle, 1, 1) == NOT_OPEN
    assert refused(timers.advance, 0) == refused(timers.advance, 1) == refused(timers.advance_to, 1) == NOT_OPEN
    assert refused(timers.catch_up, 0, print) == refused(timers.tick) == NOT_OPEN
    for closed in (timers, Timers.__new__(Timers)):
        for call in (lambda: closed.take(9), closed.expire, closed.expired, closed.__enter__, lambda: closed.stop(handle),
                     lambda: closed.look(handle), lambda: closed.restart(handle, 1), lambda: closed.reserve(1), closed.counts):
            assert refused(call) == NOT_OPEN
        assert list(closed) == [] and len(closed) == closed.pending() == closed.now() == 0 and handle not in closed
        assert closed.wakeup() is None and not closed.has_due()
        closed.clear()
        closed.close()


def close_if_the_block_raises():
    """A block that is left by an exception frees its timers, and the exception goes on."""
    def leave():
        with timers:
            raise KeyError

    timers = Timers()
    assert raises(KeyError, leave) and refused(timers.start, 1, 1) == NOT_OPEN


def take_nothing_if_refused():
    """A number that is refused takes no timer, and passes no tick."""
    with Timers() as timers:
        first, second = timers.start_at(0, 7), timers.start(3, 8)
        for call in (timers.advance, lambda value: timers.catch_up(value, print), timers.take, timers.advance_to):
            for value, kind in ((-1, OverflowError), (2**64, OverflowError), (1.5, TypeError), (None, TypeError)):
                assert raises(kind, call, value)
        assert refused(timers.catch_up, 2**60, print) == refused(timers.catch_up, 2**64 - 1, print) == TOO_LATE
        assert timers.now() == 0 and timers.has_due() and len(timers) == 2
        assert timers.advance(3) == [(0, first.serial, 7), (3, second.serial, 8)]


def catch_up_with_other_times():
    """A time before the clock passes no tick and runs nothing. One after its end is refused, and nothing has run."""
    with Timers(SMALL, 1000) as timers:
        ran = []
        timers.start(500, 1)
        timers.start_at(0, 2)
        for now in (999, 0):
            timers.catch_up(now, lambda *timer: ran.append(timer))
            timers.advance_to(now)
        for now in (16777216, 2**64 - 1):
            assert refused(timers.catch_up, now, lambda *timer: ran.append(timer)) == TOO_LATE
        assert ran == [] and timers.now() == 1000 and timers.has_due() and len(timers) == 2
        timers.catch_up(1000, lambda *timer: ran.append(timer[2]))
        timers.catch_up(16777215, lambda *timer: ran.append(timer[2]))
        assert ran == [2, 1] and timers.now() == 16777215


def take_many():
    """All timers of a tick are taken, however many there are. What is dropped is not."""
    with Timers() as timers:
        for take in (timers.advance, lambda most: timers.advance_to(timers.now() + most) or timers.expired()):
            for action in range(1000):
                timers.start(9, action)
            assert [action for _, _, action in take(9)] == list(range(1000)) and not timers.has_due()
        ran = []
        for action in range(200):
            timers.start(9, action)
        timers.catch_up(timers.now() + 9, lambda *timer: ran.append(timer[2]))
        assert ran == list(range(200))
        handles = [timers.start_at(0, 1), timers.start(5, 2)]
        timers.clear()
        assert len(timers) == 0 and timers.advance(99) == [] and timers.now() == 126
        assert all(refused(timers.look, handle) == NOT_PENDING for handle in handles)


def keep_what_an_iteration_gave():
    """Each handle of an iteration names its own timer, also when it is used later."""
    with Timers() as timers:
        for action in range(50):
            timers.start(1 + action, action)
        found = list(timers)
        assert sorted(action for _, (_, _, action) in found) == list(range(50))
        assert all(timers.look(handle) == timer for handle, timer in found)
        assert sorted(timers.stop(handle) for handle, _ in found) == list(range(50)) and len(timers) == 0


def raise_from_a_run():
    """What `run` raises leaves catch_up. The timer is taken, and the others of its tick are not."""
    with Timers() as timers:
        for action in range(10):
            timers.start(5, action)
        ran = []

        def run(*timer):
            ran.append(timer[2])
            if timer[2] % 3 == 0:
                raise KeyError(timer[2])

        for _ in range(4):
            assert raises(KeyError, timers.catch_up, 9, run)
            assert timers.now() == 5 and ran == list(range(ran[-1] + 1))
        timers.catch_up(9, run)
        assert ran == list(range(10)) and timers.now() == 9


def mapped():
    """The bytes of memory that this process has mapped."""
    with open("/proc/self/statm", encoding="ascii") as file:
        return int(file.read().split()[0]) * 4096


def make_room():
    """Room for 100,000 timers is 4 MB. While fewer are held, nothing is added to it."""
    most, before = 100000, mapped()
    with Timers() as timers:
        timers.reserve(most)
        reserved = mapped()
        assert 36 * most < reserved - before < 56 * most, reserved - before
        for number in range(most):
            timers.start(1 + number, None)
        assert mapped() < reserved + 2**21 and len(timers) == most


def free_what_is_closed():
    """What is closed, forgotten or made anew gives its memory back, once: 12 times 4 MB would be 48 MB for each kind."""
    before = mapped()
    for round_of in range(60):
        timers = Timers()
        timers.reserve(100000)
        timers.start(1, Action())
        if round_of % 5 == 0:
            timers.close()
            timers.close()
        elif round_of % 5 == 1:
            with timers:
                pass
        elif round_of % 5 == 2:
            timers.start(1, timers)
            del timers
            gc.collect()
        elif round_of % 5 == 3:
            timers.__init__()
            assert len(timers) == 0
            timers = None
        else:
            timers = None
        assert Action.live == set()
        assert mapped() < before + 40 * 2**20, (round_of, mapped() - before)


class Number:
    """A whole number by `__index__` alone, which answers once."""

    def __init__(self, value):
        self.values = [value]

    def __index__(self):
        return self.values.pop()


def take_whole_numbers():
    """A number is read once, and stands for itself wherever it is used. Handles are equal if their numbers are."""
    timers, last = Timers(Number(SMALL), Number(16777206)), 16777215
    timers.reserve(Number(9))
    handle = timers.start(Number(1), 7)
    for call in (timers.restart, timers.restart_at, timers.set_at):
        handle = call(handle, Number(9 if call == timers.restart else last), 7)
    assert timers.look(Handle(Number(handle.place), Number(handle.serial))) == (last, handle.serial, 7)
    assert timers.take(Number(16777207)) is None and timers.advance(Number(1)) == []
    timers.advance_to(Number(16777209))
    timers.catch_up(Number(16777210), print)
    assert refused(timers.catch_up, Number(last + 1), print) == TOO_LATE and timers.now() == 16777210
    for wrong in ((99, 0), (SMALL, last + 1)):
        assert refused(timers.__init__, *wrong) != OK and len(timers) == 1  # and it keeps what it has
    place, serial = handle.place, handle.serial
    same, others = Handle(place, serial), (Handle(place, 9), Handle(9, serial), (place, serial))
    assert handle == same and hash(handle) == hash(same) and repr(same) == f"Handle({handle.place}, {handle.serial})"
    assert handle not in others and {handle: 1}[same] == 1


def hold_the_lock(most=3000):
    """Calls of several threads on the same timers come one at a time: nothing is lost, and nothing comes twice."""
    timers, stopped, taken = Timers(), [], []

    def work(seed):
        rng, handles = random.Random(seed), []
        for number in range(most):
            handles.append(timers.start(1 + rng.randrange(500), (seed, number)))
            if rng.randrange(3) == 0:
                with contextlib.suppress(TimersError):  # another thread has taken it
                    stopped.append(timers.stop(handles.pop(rng.randrange(len(handles)))))
            if rng.randrange(8) == 0:
                with contextlib.suppress(TimersError):  # another thread has advanced it to what is due
                    taken.extend(timers.advance(1))

    interval = sys.getswitchinterval()
    sys.setswitchinterval(1e-6)
    workers = [threading.Thread(target=work, args=(seed,)) for seed in range(4)]
    for worker in workers:
        worker.start()
    for worker in workers:
        worker.join()
    sys.setswitchinterval(interval)
    taken += timers.advance(500)
    assert len(timers) == 0
    assert sorted(stopped + [action for _, _, action in taken]) == [(seed, number) for seed in range(4) for number in range(most)]


def keep_what_is_refused():
    """A call that is refused leaves the timer its action, and takes none."""
    timers, shared = Timers(SMALL, 5), [7]
    handle, number = timers.start(3, Action()), Action.made
    calls = ((timers.restart, handle, 0, shared), (timers.restart, handle, 0), (timers.restart, handle, SMALL_LAST),
             (timers.restart_at, handle, SMALL_LAST + 1, shared), (timers.restart_at, handle, SMALL_LAST + 1),
             (timers.set_at, handle, SMALL_LAST + 1, shared), (timers.set_at, None, SMALL_LAST + 1, shared),
             (timers.start, 0, shared), (timers.start_at, SMALL_LAST + 1, shared), (timers.restart, Handle(), 1),
             (timers.restart_at, Handle(), 1, shared), (timers.stop, Handle()), (timers.look, Handle()))
    references = sys.getrefcount(shared)
    for call, *arguments in calls:
        assert refused(call, *arguments) in (ZERO_INTERVAL, TOO_LATE, NOT_PENDING)
        arguments.clear()
        assert Action.live == {number} and sys.getrefcount(shared) == references
    assert timers.stop(handle).number == number and list(timers) == []


class Calls:
    """Runs a function once nothing refers to it."""

    def __init__(self, run):
        self.run = run

    def __del__(self):
        self.run()


def release_what_calls_back():
    """What is run by the release of an action may call the same timers, and finds them as they are by then."""
    ways = [Timers.clear, Timers.close, Timers.__init__, lambda timers: timers.stop(handles[0]), Timers.expired, Timers.expire,
            lambda timers: timers.restart(handles[0], 3, None), lambda timers: timers.set_at(handles[0], 3, None),
            lambda timers: timers.advance(9), lambda timers: timers.take(9), lambda timers: timers.catch_up(9, lambda *_: None)]
    calls = [lambda: timers.start(1, "new"), lambda: timers.start_at(0, "due"), lambda: timers.stop(handles[1]), lambda: len(timers),
             lambda: list(timers), lambda: timers.clear(), lambda: timers.close(), lambda: timers.__init__(),
             lambda: timers.expired(), lambda: timers.restart(handles[1], 7, "other"), lambda: timers.reserve(5000), gc.collect]
    for way in ways:
        for call in calls:
            ran = []

            def run(call=call, ran=ran):
                ran.append(1)
                with contextlib.suppress(TimersError):
                    call()

            timers = Timers()
            handles = [timers.start(1 + number % 2, Calls(run)) for number in range(6)]
            timers.start_at(0, Calls(run))
            with contextlib.suppress(TimersError):
                way(timers)
            assert len(timers) == len(list(timers))
            timers.wakeup()
            timers.close()
            assert len(ran) == 7 and len(timers) == 0


def refer_in_circles():
    """What only refers to itself is freed by the collector: by an action, by an iteration, and by a class of the user's."""
    class Named(Timers):
        pass

    shared = [7]  # the collector ends objects before it frees them: so it is references that are counted
    references = sys.getrefcount(shared)
    for kind in (Timers, Named):
        for circle in ("action", "iteration", "attribute", "many"):
            timers = kind()
            gone = weakref.ref(timers)
            if circle == "action":
                timers.start(5, timers)
            elif circle == "iteration":
                iteration = iter(timers)
                timers.start(5, [iteration])
                timers.start_at(0, next(iteration))
                del iteration
            elif circle == "attribute" and kind is Named:
                timers.itself = timers
            elif circle == "many":
                for number in range(1000):
                    timers.start(1 + number, [number, timers.start])
                timers.advance(500)
            timers.start(1, Action())
            timers.start(1, shared)
            del timers
            gc.collect()
            assert gone() is None and Action.live == set() and sys.getrefcount(shared) == references


def derive():
    """A class of the user's has the same calls, and may have more."""
    class Named(Timers[str]):
        def __init__(self, name):
            super().__init__(SMALL, 7)
            self.name = name

        def start(self, interval, action):
            return super().start(interval, self.name + action)

    named = Named("a")
    handle = named.start(3, "b")
    assert named.look(handle) == (10, handle.serial, "ab") and named.name == "a" and refused(named.start, SMALL_LAST - 6, "") == TOO_LATE
    assert repr(named) == "<timers, 1 held, tick 7>"
    empty = Timers.__new__(Timers)
    assert refused(empty.start, 1, 1) == NOT_OPEN and repr(empty) == "<timers, closed>" and len(empty) == 0 and list(empty) == []


def call_the_actions():
    """Without a function catch_up calls the actions. One that can't be called is taken all the same."""
    timers, ran = Timers(), []
    timers.start(3, lambda: ran.append("c"))
    timers.start(1, lambda: ran.append("a"))
    timers.start(2, "no function")
    assert raises(TypeError, timers.catch_up, 9) and timers.now() == 2 and ran == ["a"]
    timers.catch_up(9, None)
    assert ran == ["a", "c"] and timers.now() == 9


def name_what_is_refused():
    """An error has the number and the text of its reason, also once it was pickled."""
    error = pickle.loads(pickle.dumps(TimersError(NOT_PENDING)))
    assert (error.status, str(error), repr(error)) == (NOT_PENDING, "no timer has this handle", "TimersError(NOT_PENDING)")
    for name in ("OK", "NOT_OPEN", "OPEN", "NO_TABLE", "NO_MEMORY", "DUE", "ZERO_INTERVAL", "TOO_LATE", "SERIALS_SPENT", "CLOCK_END"):
        assert repr(TimersError(getattr(module, name))) == f"TimersError({name})"
    for status in (desk.CLOSED, 99, 2**40):
        assert (str(TimersError(status)), repr(TimersError(status))) == ("no status", f"TimersError({status})")
    assert repr(desk.DeskError(desk.CLOSED)) == "DeskError(CLOSED)" and repr(desk.DeskError(desk.TOO_LATE)) == "DeskError(TOO_LATE)"
    for kind in (TimersError, desk.DeskError):
        assert raises(TypeError, kind) and raises(TypeError, kind, 1, 2) and raises(TypeError, kind, "x")
        assert raises(OverflowError, kind, -1) and raises(TypeError, lambda kind=kind: kind(status=1))
    last_ticks = [
        # made by tools/facts: last ticks of tables in Python
        module.LAST, module.LAST, module.SMALL_LAST,
    ]
    for wrong in (len(last_ticks), 2**32 - 1):
        assert refused(Timers, wrong) == NO_TABLE
    for table, last in enumerate(last_ticks):
        assert refused(Timers, table, last + 1) == TOO_LATE and Timers(table, last).now() == last
    assert set(module.__all__) | {"asyncio", "desk"} >= {name for name in vars(module) if not name.startswith("_")}


def keep_handles():
    """Handles are kept by copies, pickles, sets and dictionaries. They can't be changed."""
    handle = Handle(3, 2**64 - 1)
    for same in (copy.copy(handle), copy.deepcopy(handle), pickle.loads(pickle.dumps(handle))):
        assert same == handle and hash(same) == hash(handle) and not same != handle
    assert Handle() == Handle(0, 0) == Handle(serial=0, place=0) and Handle() != Handle(0, 1) and Handle() != 0
    assert raises(AttributeError, setattr, handle, "serial", 1) and raises(TypeError, lambda: handle < handle)
    assert len({Handle(place, serial) for place in range(100) for serial in range(100)}) == 10000
    timers = Timers()
    by_handle = {timers.start(1, number): number for number in range(1000)}
    assert all(timers.stop(handle) == number for handle, number in by_handle.items()) and list(timers) == []


def refuse_memory():
    """Each allocation of each call is refused once: nothing is lost but what the failing call had taken, and nothing leaks."""
    if _testcapi is None:
        print("skipped: no _testcapi, which refuses memory")
        return
    spare, refusals = [7], 0

    # Made before: an interpreter that has no memory for a function may crash.
    def ignore(*timer):
        pass

    def start_spare(interval):
        return timers.start(1 + interval, spare)

    calls = [lambda: timers.start(5, spare), lambda: timers.start_at(0, spare), lambda: timers.reserve(3000),
             lambda: timers.restart(handle, 2), lambda: timers.restart(handle, 2, spare), lambda: timers.set_at(None, 2, spare),
             lambda: timers.set_at(handle, 2, spare), lambda: timers.stop(handle), lambda: timers.look(handle),
             lambda: timers.take(1009), lambda: timers.expire(), lambda: timers.expired(), lambda: timers.advance(300),
             lambda: timers.catch_up(1300, ignore), lambda: list(timers), lambda: timers.counts(),
             lambda: timers.__init__(), lambda: Timers(), lambda: repr(timers), lambda: Handle(2**70 % 2**64, 1),
             lambda: list(map(start_spare, range(60)))]
    references = sys.getrefcount(spare)
    tracemalloc.start()
    for call in calls:
        begun = tracemalloc.get_traced_memory()[0]
        more, failed = 0, True
        while failed or more < 4:  # the call runs again, with one more allocation before that which is refused
            timers = Timers(first_tick=1000)
            for number in range(260):  # numbers up to 256 need no memory
                timers.stop(timers.start(1, number))
            handle = [timers.start_at(number % 3, Action()) for number in range(20)][0]
            for number in range(80):  # with the others more than a batch of 64
                timers.start(1 + number, Action())
            _testcapi.set_nomemory(more, more + 1)
            try:
                call()
                failed = False
            except MemoryError:
                failed = True
            except TimersError as error:
                assert error.status == NO_MEMORY
                failed = True
            finally:
                _testcapi.remove_mem_hooks()
            assert sum(isinstance(timer[2], Action) for _, timer in timers) == len(Action.live), more
            assert len(timers) == sum(1 for _ in timers), more
            refusals += failed
            more += 1
            assert more < 999
            timers.advance(1000)
            timers.close()
            assert Action.live == set() and sys.getrefcount(spare) == references
        del timers, handle
        gc.collect()
        kept = tracemalloc.get_traced_memory()[0] - begun
        assert kept < 5000 or call is calls[0], kept  # Python itself keeps some of the first
    tracemalloc.stop()
    assert refusals > 40, refusals


def stop_what_expired():
    """The work of one timer stops another of its tick, which is not handed out then."""
    with Timers() as timers:
        handles = [timers.start(5, number) for number in range(3)]
        ran = []

        def run(deadline, serial, action):
            ran.append((deadline, action))
            if action == 0:
                assert timers.stop(handles[1]) == 1

        timers.catch_up(9, run)
        assert ran == [(5, 0), (5, 2)] and timers.now() == 9 and timers.expire() is None


def come_to_the_last_tick():
    """Nothing that expired is lost at the end of the clock, and what is refused there has taken nothing."""
    last = 16777215
    with Timers(SMALL, last - 9) as timers:
        first, second = timers.start(5, 7), timers.start(9, 8)
        assert refused(timers.start, 10, 9) == TOO_LATE
        assert timers.advance(100) == [(last - 4, first.serial, 7), (last, second.serial, 8)]
        assert timers.now() == last and refused(timers.advance, 1) == CLOCK_END
        assert timers.advance(0) == [] and timers.now() == last
        assert timers.take(LAST) is None and timers.now() == last
        timers.clear()
        assert refused(timers.start_at, last, 1) == refused(timers.start_at, 0, 1) == TOO_LATE
    with Timers(SMALL, last - 9) as timers:
        assert timers.advance(100) == [] and timers.now() == last
        assert refused(timers.advance, 100) == CLOCK_END
    with Timers(SMALL, last - 1) as timers:
        handle = timers.start(1, 6)
        timers.tick()
        assert timers.advance(1) == [(last, handle.serial, 6)]
        assert refused(timers.advance, 1) == CLOCK_END


if __name__ == "__main__":
    for test in (meet_the_edges, close_if_the_block_raises, stop_what_expired,
                 come_to_the_last_tick, take_nothing_if_refused, catch_up_with_other_times, take_many,
                 keep_what_an_iteration_gave, raise_from_a_run, make_room, free_what_is_closed, take_whole_numbers, hold_the_lock,
                 keep_what_is_refused, release_what_calls_back, refer_in_circles, derive, call_the_actions, name_what_is_refused,
                 keep_handles, refuse_memory):
        test()

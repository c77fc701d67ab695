"""replay_test.py TRACE..   makes the calls of traces of tests/driver: each has the answers that stand there

The driver has compared them with a model. A call that Python doesn't have is made by others."""
import sys

from timers import Timers, TimersError
from timers.desk import OPEN, Desk, DeskError, Handle


class Action:
    live = set()

    def __init__(self, number):
        self.number = number
        self.live.add(number)

    def __del__(self):
        self.live.discard(self.number)


def taken(timer):
    return [1, *numbers_of([timer])] if timer else [0]


def numbers_of(timers):
    return [number for deadline, serial, action in timers for number in (deadline, serial, action.number)]


def known(tick):
    return [2**64 - 1 if tick is None else tick]


class Replay:
    """A method for each call, which returns the answers that it has in Python."""

    def new(self, table, first):
        self.handles = {0: None}
        self.timers = None
        assert Action.live == set()
        self.timers = Timers(table, first)
        return [0]

    def started(self, handle):
        self.handles[handle.serial] = handle
        return [0, handle.serial]

    def restarted(self, call, serial, when, action):
        handle = self.handles[serial]
        keeps = handle in self.timers and self.timers.look(handle)[2].number == action
        return self.started(call(handle, when, *([] if keeps else [Action(action)])))

    def look(self, serial):
        found = self.handles[serial] in self.timers
        timer = self.timers.look(self.handles[serial])
        assert found
        return [0, *numbers_of([timer])]

    def visit(self):
        found = list(self.timers)
        assert Action.live == {timer[2].number for _, timer in found} and len(self.timers) == len(found)
        assert all(handle.serial == timer[1] for handle, timer in found)
        shown = numbers_of(sorted(timer for _, timer in found))
        return [len(shown), *shown]

    def advance(self, most):
        before = self.timers.now()
        self.timers.advance_to(before + most)
        return [0, self.timers.now() - before]

    def expire_batch(self, room):
        shown = numbers_of(filter(None, [self.timers.expire() for _ in range(room)]))
        return [len(shown), *shown]

    def catch_up(self, tick):
        got = []
        if tick % 3 == 0:
            self.timers.catch_up(tick, lambda *timer: got.append(timer))
        elif tick % 3 == 1:
            got = self.timers.advance(tick - self.timers.now())
        else:
            got = self.timers.expired()
            while self.timers.now() < tick:
                self.timers.advance_to(tick)
                got += self.timers.expired()
        shown = numbers_of(got)
        return [len(shown), *shown]

    free = lambda self: []
    clear = lambda self: [self.timers.clear() or self.timers.pending()]
    reserve = lambda self, most: [self.timers.reserve(most) or 0]
    start = lambda self, interval, action: self.started(self.timers.start(interval, Action(action)))
    start_at = lambda self, tick, action: self.started(self.timers.start_at(tick, Action(action)))
    restart = lambda self, *numbers: self.restarted(self.timers.restart, *numbers)
    restart_at = lambda self, *numbers: self.restarted(self.timers.restart_at, *numbers)
    set_at = lambda self, serial, *when: self.started(self.timers.set_at(self.handles[serial], when[0], Action(when[1])))
    set_at_held = set_at
    stop = lambda self, serial: [0, self.timers.stop(self.handles[serial]).number]
    tick = lambda self: [self.timers.tick() or 0]
    advance_to = lambda self, tick: [self.timers.advance_to(tick) or 0]
    take = lambda self, tick: taken(self.timers.take(tick))
    expire = lambda self: taken(self.timers.expire())
    has_due = lambda self: [self.timers.has_due()]
    now = lambda self: [self.timers.now()]
    len = lambda self: [self.timers.pending()]
    wakeup = lambda self: known(self.timers.wakeup())
    counts = lambda self: [0, *self.timers.counts()]


class DeskReplay:
    """The same for a desk and its lines. A desk is made anew, and all its lines, before other calls."""

    desk, lines = Desk.__new__(Desk), {}

    def desk_new(self, clients, table, first_tick, capacity, room, line, _):
        self.desk = Desk(clients, capacity, room - line - 1, line, first_tick, table)
        self.lines, self.handles = dict(enumerate(self.desk.lines)), {0: Handle()}
        return [0]

    def desk_open(self, client, room):
        self.lines[client] = self.desk.open(client, room)
        return [0]

    def line_receive(self, client):
        word = self.lines[client].receive()
        if word is None:
            return [0]
        self.handles[word.handle.serial] = word.handle
        return [1, word.kind, word.reason, word.number, word.handle.place, word.handle.serial, word.deadline, word.action, word.other]

    def line_free(self, client):
        if client in self.lines:
            self.lines[client].free()
        return []

    word = word_reason = lambda self, *_: []
    desk_free = lambda self: [self.desk.free()][:0]
    desk_serve = lambda self, client: [self.desk.serve(client)]
    desk_serve_all = lambda self, most: [self.desk.serve_all(most)]
    desk_flush = lambda self, client: [self.desk.flush(client)]
    desk_flush_all = lambda self: [self.desk.flush_all()]
    desk_tick = lambda self: [self.desk.advance(1) - 1]
    desk_advance = lambda self, most: [0, self.desk.advance(most)]
    desk_close = lambda self: [0, self.desk.close()]
    desk_end = lambda self, client: [0, self.desk.end(client, self.lines[client])]
    desk_stop_pending = lambda self, client: [0, self.desk.stop_pending(client)]
    desk_reserve = lambda self: [self.desk.reserve() or 0]
    desk_now = lambda self, _: [self.desk.now]
    desk_len = lambda self, _: [len(self.desk)]
    desk_pending = lambda self, client: [self.desk.pending(client)]
    desk_outbox = lambda self, client: [self.desk.outbox(client)]
    desk_wakeup = lambda self, _: known(self.desk.wakeup())
    desk_next = lambda self, _: known(self.desk.next())
    desk_line_freed = lambda self, client: [self.desk.line_freed(client)]
    line_start = lambda self, client, *numbers: [0, self.lines[client].start(*numbers)]
    line_start_at = lambda self, client, *numbers: [0, self.lines[client].start_at(*numbers)]
    line_stop = lambda self, client, place, serial: [0, self.lines[client].stop(self.handles[serial])]
    line_restart = lambda self, client, place, serial, *numbers: [0, self.lines[client].restart(self.handles[serial], *numbers)]
    line_restart_at = lambda self, client, place, serial, *numbers: [0, self.lines[client].restart_at(self.handles[serial], *numbers)]
    line_finish = lambda self, client: [self.lines[client].finish() or 0]
    line_ended = lambda self, client: [self.lines[client].ended]
    line_abandoned = lambda self, client: [self.lines[client].abandoned]


def play(path):
    replay, made = DeskReplay() if "/desk." in path else Replay(), 0
    with open(path, encoding="ascii") as lines:
        for made, line in enumerate(lines, start=1):
            name, *words = line.removeprefix("timers_").split()
            end = words.index("=")
            if name == "desk_open" and int(words[-1]) == OPEN:
                continue  # a line of Python's is made by the call
            try:
                got = getattr(replay, name)(*map(int, words[:end]))
            except (TimersError, DeskError) as error:
                got = [error.status]
            wanted = list(map(int, words[end + 1:]))[:len(got)]
            assert got == wanted, (path, made, line, got)
    assert made > 1000
    return made


print(sum(map(play, sys.argv[1:])), "calls of traces have their answers in Python")

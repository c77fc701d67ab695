#!/usr/bin/env python3
"""An event loop with a real clock, whose time-outs are kept by `timers serve`.

    examples/serve.py PROGRAM [TICK]      e.g.  examples/serve.py ./timers 0.05

Messages are sent, and each is to be acknowledged within 30 ticks of TICK seconds (by default 0.05). An
acknowledgement stops the message's time-out. That of message 4 comes at the very tick at which the time-out fires.
"""
import subprocess, sys, time

TIME_OUT = 30
PLAN = [  # what happens, and at which tick
    (0, "send", 1), (10, "send", 2), (15, "send", 3), (20, "acknowledge", 1),
    (25, "acknowledge", 2), (40, "send", 4), (70, "acknowledge", 4),
]


class TimeOuts:
    """Time-outs in ticks. Each has a number of the caller's own, which `fired` gets when it fires."""

    def __init__(self, program, fired):
        command = [program, "serve", "--clients", "1", "--wakeups"]
        self.server = subprocess.Popen(command, stdin=subprocess.PIPE, stdout=subprocess.PIPE, text=True)
        self.fired, self.requests, self.serials, self.wakeup = fired, 0, {}, None

    def say(self, line):
        """Sends a line, and returns its answer, if it has one. Until the tick `wakeup` nothing fires."""
        print(line, file=self.server.stdin, flush=True)
        answer = None
        while (fields := self.server.stdout.readline().split()) and fields[0] != "wakeup":
            if fields[0] == "expired":
                _, tick, _, _, action = fields
                self.fired(int(action), int(tick))
            else:
                answer = fields
        if not fields:
            raise OSError(None, "it ended")
        self.wakeup = None if fields[1] == "never" else int(fields[1])
        return answer

    def ask(self, word, *numbers):
        self.requests += 1
        return self.say(" ".join(map(str, (word, 0, self.requests, *numbers))))

    def start(self, ticks, number):
        _, _, _, self.serials[number], _ = self.ask("start", ticks, number)

    def stop(self, number):
        """Whether it was stopped in time. If it fired before, the request is refused."""
        return self.ask("stop", self.serials.pop(number))[0] == "stopped"

    def close(self):
        self.server.stdin.close()
        return self.server.stdout.readline().split(), self.server.wait()


def main(program, tick):
    timers = TimeOuts(program, lambda number, now: print(f"message {number} was not acknowledged by tick {now}"))
    begin, now = time.monotonic(), 0
    for at, what, number in PLAN:
        while now < at:
            # The loop sleeps until there is something to do, and then passes all ticks up to it.
            then = min(at, timers.wakeup or at)
            time.sleep(max(0, begin + then * tick - time.monotonic()))
            timers.say(f"at {then}")
            now = then
        if what == "send":
            timers.start(TIME_OUT, number)
        elif timers.stop(number):
            print(f"message {number} was acknowledged in time")
        else:
            print(f"message {number} was acknowledged too late")
    (_, now, pending), status = timers.close()
    print(f"end at tick {now} with {pending} pending, status {status}")


if len(sys.argv) not in (2, 3):
    print(f"usage: {sys.argv[0]} PROGRAM [TICK], e.g. {sys.argv[0]} ./timers 0.05", file=sys.stderr)
    sys.exit(2)
try:
    tick = float(sys.argv[2]) if len(sys.argv) == 3 else 0.05
except ValueError:
    sys.exit(f"{sys.argv[0]}: a tick is a number of seconds, not {sys.argv[2]}")
try:
    main(sys.argv[1], tick)
except OSError as fault:
    sys.exit(f"{sys.argv[1]}: {fault.strerror}")

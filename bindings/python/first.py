"""The shortest whole use from Python: three timers, of which one is stopped. In the repository:

    python3 -m venv build/venv && build/venv/bin/pip install ./bindings/python
    build/venv/bin/python bindings/python/first.py
"""
from timers import Timers

with Timers() as timers:
    timers.start(300, "tea")  # an action is any object
    timers.start(240, "egg")
    call = timers.start(900, "call")
    timers.stop(call)
    while len(timers) > 0:
        # a server sleeps until then first
        for deadline, _, action in timers.advance(timers.wakeup() - timers.now()):
            print(f"{deadline}: {action}")

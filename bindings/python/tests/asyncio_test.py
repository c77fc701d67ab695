"""Runs CPython's own tests of asyncio with loops of timers.asyncio in place of asyncio's.

    asyncio_test.py [MODULE..]      of test.test_asyncio; by default those that use timers

Some of them look at the real clock. So those that have failed run once more, by themselves.
"""
import asyncio
import gc
import importlib
import sys
import unittest

from timers.asyncio import EventLoop, WheelMixin

MODULES = ["test_base_events", "test_events", "test_futures", "test_locks", "test_queues", "test_runners", "test_taskgroups",
           "test_tasks", "test_timeouts", "test_waitfor"]

# They look into the list of the heap, `_scheduled`, after a call_later.
OF_THE_HEAP = {"BaseEventLoopTests.test_call_later", "BaseEventLoopTests.test__run_once_cancelled_event_cleanup"}


def use_the_wheel():
    """Each name by which asyncio and its tests make a loop stands for one with timers of a wheel."""
    base = type("BaseEventLoop", (WheelMixin, asyncio.BaseEventLoop), {"__module__": "asyncio.base_events"})
    asyncio.BaseEventLoop = asyncio.base_events.BaseEventLoop = base
    for module in asyncio, asyncio.unix_events:
        for name in "SelectorEventLoop", "EventLoop":
            if hasattr(module, name):
                setattr(module, name, EventLoop)
    asyncio.unix_events._UnixSelectorEventLoop = EventLoop
    asyncio.unix_events._UnixDefaultEventLoopPolicy._loop_factory = EventLoop


def cases(suite):
    for test in suite:
        if isinstance(test, unittest.TestSuite):
            yield from cases(test)
        elif ".".join(test.id().split(".")[-2:]) not in OF_THE_HEAP:
            yield test


def run(tests):
    """Those that have failed."""
    suite = unittest.TestSuite(tests)
    gc.freeze()  # hundreds of tests collect what they leave, and need not look for it in all that was there before
    result = unittest.TextTestRunner(verbosity=0).run(suite)
    return {getattr(test, "test_case", test).id() for test, _ in result.failures + result.errors}


def load(names):
    for name in names:
        try:
            module = importlib.import_module("test.test_asyncio." + name)
        except ModuleNotFoundError:
            print(f"skipped: this Python has no test.test_asyncio.{name}")
        else:
            yield from cases(unittest.defaultTestLoader.loadTestsFromModule(module))


def main(names):
    use_the_wheel()
    failed = set().union(*(run(load([name])) for name in names))
    again = [test for test in load(names) if test.id() in failed]
    sys.exit(bool(failed) and (len(again) < len(failed) or bool(run(again))))


if __name__ == "__main__":
    main(sys.argv[1:] or MODULES)

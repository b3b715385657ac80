"""What test_lifetimes.py runs, each function in a process of its own: decoding at times at which programs seldom do."""

from __future__ import annotations

import atexit
import gc
import os
import random
import resource
import signal
import sys
import threading
import time

import hayro_jbig2
from pages import EXAMPLE, GLOBALS, TEXT, generic_page

BOOK = EXAMPLE.read_bytes()
# Takes some milliseconds.
SLOW = generic_page(2048, 2048)


def check(decode, shared, iterator=None):
    """Decodes a page with globals, and the next of an iterator over the pages of the example."""
    page = decode(TEXT, globals=shared)
    assert (page.width, page.height, bytes(page.rows)) == (8, 1, b"\x80"), page
    if iterator:
        assert bytes(next(iterator).rows[8:16]) == bytes.fromhex("07878f0f0f000000")


def daemon_threads():
    """Ends while daemon threads decode."""
    shared = hayro_jbig2.Globals(GLOBALS)

    def work():
        while True:
            hayro_jbig2.decode(SLOW)
            check(hayro_jbig2.decode, shared, hayro_jbig2.pages(BOOK))

    for _ in range(4):
        threading.Thread(target=work, daemon=True).start()
    time.sleep(random.uniform(0.01, 0.05))


def atexit_handler():
    """Decodes in a handler that runs after those of modules which are loaded later."""
    kept = []
    atexit.register(lambda: [check(hayro_jbig2.decode, *kept) for _ in range(2)])
    kept += [hayro_jbig2.Globals(GLOBALS), hayro_jbig2.pages(BOOK)]


class AtTheEnd:
    """Decodes when it is taken apart."""

    def __init__(self):
        self.check, self.decode, self.say = check, hayro_jbig2.decode, os.write
        self.shared = hayro_jbig2.Globals(GLOBALS)
        self.iterator = hayro_jbig2.pages(BOOK)

    def __del__(self):
        try:
            self.check(self.decode, self.shared, self.iterator)
            self.say(1, b"decoded\n")
        except Exception as error:
            self.say(1, f"{type(error).__name__}\n".encode())


def module_teardown():
    """Decodes in the __del__ of what modules refer to."""
    global kept
    kept = AtTheEnd()
    hayro_jbig2.kept = AtTheEnd()


def cycles():
    """Decodes in the __del__ of what is collected together with its globals and its iterator."""
    for _ in range(100):
        end = AtTheEnd()
        end.itself = end
        del end
        gc.collect()


def collector_at_every_turn():
    """Lets the collector run as often as it can, in two threads, over what decodes with the globals of the other."""
    both = [hayro_jbig2.Globals(GLOBALS), hayro_jbig2.Globals(GLOBALS)]

    class Cycle:
        def __init__(self, shared):
            self.shared, self.itself = shared, self

        def __del__(self):
            check(hayro_jbig2.decode, self.shared)

    def work(mine, other):
        end = time.monotonic() + 2
        while time.monotonic() < end:
            Cycle(mine), Cycle(other)
            check(hayro_jbig2.decode, mine, hayro_jbig2.pages(BOOK))

    gc.set_threshold(1)
    sys.setswitchinterval(1e-5)
    run(threading.Thread(target=work, args=pair) for pair in (both, both[::-1]))
    # What is left, while there are globals to decode it with.
    gc.collect()


def signals():
    """Decodes in a signal handler with the globals that the main thread and another thread use, ten times at least: on a
    busy computer two seconds are not enough for that."""
    shared, counts = hayro_jbig2.Globals(GLOBALS), [0]

    def handle(*_):
        counts[0] += 1
        check(hayro_jbig2.decode, shared, hayro_jbig2.pages(BOOK))
        signal.setitimer(signal.ITIMER_REAL, 0.0005)

    def work():
        end = time.monotonic() + 2
        while time.monotonic() < end or counts[0] < 10:
            check(hayro_jbig2.decode, shared)

    signal.signal(signal.SIGALRM, handle)
    signal.setitimer(signal.ITIMER_REAL, 0.0005)
    other = threading.Thread(target=work)
    other.start()
    work()
    other.join()
    signal.setitimer(signal.ITIMER_REAL, 0)


def raising_signals():
    """Gives up a call by an exception of a signal handler, as a limit of time does, and looks at the memory."""
    # An extension of 4 MB, which reading copies.
    long = TEXT + bytes.fromhex("00000003 3E 00 01") + (4 << 20).to_bytes(4, "big") + bytes(4 << 20)
    shared, given_up = hayro_jbig2.Globals(GLOBALS), 0

    class TimeIsUp(Exception):
        pass

    def handle(*_):
        raise TimeIsUp

    # Python drops what a handler raises in a __del__.
    sys.unraisablehook = lambda *_: None
    signal.signal(signal.SIGALRM, handle)
    for round in range(150):
        try:
            signal.setitimer(signal.ITIMER_REAL, 0.0001 + round % 20 * 0.0002)
            check(lambda data, globals: hayro_jbig2.decode(long, globals=globals), shared)
            signal.setitimer(signal.ITIMER_REAL, 0)
        except TimeIsUp:
            given_up += 1
    assert given_up > 10, given_up
    # Not the most that it had, which a process takes over from the one that started it.
    with open("/proc/self/statm") as file:
        held = int(file.read().split()[1]) * resource.getpagesize() // 1024
    assert held < 120_000, f"{held} KiB"


def damaged_inputs():
    """Decodes damaged pages over the same globals in several threads."""
    shared = hayro_jbig2.Globals(GLOBALS)

    def work(seed):
        chance, end = random.Random(seed), time.monotonic() + 3
        while time.monotonic() < end:
            data = bytearray(TEXT[: chance.choice((chance.randrange(len(TEXT)), len(TEXT)))])
            for _ in range(chance.randrange(4) if data else 0):
                # No size of a page or region grows above 255.
                data[chance.randrange(len(data))] = chance.choice((0, 1, 2, 4, 8, 255))
            salvage = chance.random() < 0.5
            try:
                if hayro_jbig2.sizes(data, salvage=salvage)[0].height < 1 << 12:
                    hayro_jbig2.decode(data, globals=shared, salvage=salvage, warn=False)
            except hayro_jbig2.Jbig2Error:
                pass
            check(hayro_jbig2.decode, shared)

    run(threading.Thread(target=work, args=(seed,)) for seed in range(4))


def forks():
    """Decodes in the children of a process in whose threads pages are decoded."""
    shared = hayro_jbig2.Globals(GLOBALS)

    def work():
        while True:
            hayro_jbig2.decode(SLOW)
            check(hayro_jbig2.decode, shared)

    for _ in range(4):
        threading.Thread(target=work, daemon=True).start()
    for _ in range(60):
        time.sleep(random.uniform(0, 0.01))
        child = os.fork()
        if child == 0:
            # A child that waits for a thread which it doesn't have ends by the signal.
            signal.alarm(500)
            check(hayro_jbig2.decode, shared, hayro_jbig2.pages(BOOK))
            os._exit(0)
        _, status = os.waitpid(child, 0)
        assert status == 0, status


def subinterpreters():
    """Decodes in four interpreters of one process, where this version of Python lets them load ctypes."""
    try:
        import _interpreters

        create, execute = _interpreters.create, _interpreters.exec
    except ImportError:
        import _xxsubinterpreters

        create, execute = _xxsubinterpreters.create, _xxsubinterpreters.run_string
    program = f"""
import sys, time
sys.path[:0] = {sys.path!r}
try:
    import ctypes
except ImportError:
    pass
else:
    import hayro_jbig2, pages
    shared, end = hayro_jbig2.Globals(pages.GLOBALS), time.monotonic() + 1
    while time.monotonic() < end:
        assert hayro_jbig2.decode(pages.TEXT, globals=shared).rows == b"\\x80"
        assert len(list(hayro_jbig2.pages(pages.EXAMPLE))) == 3
"""

    def work():
        fault = execute(create(), program)
        assert fault is None, fault

    run(threading.Thread(target=work) for _ in range(4))


def without_the_gil():
    """Shares globals among threads by a call that doesn't hold the GIL, as in a Python that has none."""
    module = hayro_jbig2._library
    module._HAS_GIL = False
    share, busy = module._LIBRARY.hayro_jbig2_globals_share, []

    def slowly(*words):
        busy.append(words)
        time.sleep(0.001)
        assert len(busy) == 1, "two threads are in calls with one handle"
        answer = share(*words)
        busy.pop()
        return answer

    module._LIBRARY.hayro_jbig2_globals_share = slowly
    shared = hayro_jbig2.Globals(GLOBALS)

    def handle(*_):
        # A handler may run while its own thread has the lock, and takes that again.
        with shared._inner._sharing:
            pass

    def work():
        for _ in range(30):
            check(hayro_jbig2.decode, shared)

    signal.signal(signal.SIGALRM, handle)
    signal.setitimer(signal.ITIMER_REAL, 0.002, 0.002)
    others = [threading.Thread(target=work) for _ in range(4)]
    run(others)
    signal.setitimer(signal.ITIMER_REAL, 0)


def run(threads):
    """Runs threads, and fails if one of them does."""
    faults = []
    threading.excepthook = faults.append
    threads = list(threads)
    for thread in threads:
        thread.start()
    for thread in threads:
        thread.join()
    assert not faults, faults


if __name__ == "__main__":
    globals()[sys.argv[1]]()

"""Running a spoiled lister on pipes."""

import os
import threading
import time


def not_blocking(lister, case, calls, ended):
    """The calls come from a pipe that holds some of them and has nothing more to read now."""
    source, sink = os.pipe()
    os.set_blocking(source, False)
    with open(source, "rb") as source, open(sink, "wb") as sink:
        sink.write(calls)
        sink.close() if ended else sink.flush()
        return lister.run(case.folder, stdin=source)


def slow(lister, case):
    """The calls come one byte after the other."""
    source, sink = os.pipe()

    def feed():
        with open(sink, "wb", 0) as end:
            for byte in case.calls:
                time.sleep(0.005)
                end.write(bytes([byte]))

    with open(source, "rb") as source:
        feeder = threading.Thread(target=feed)
        feeder.start()
        done = lister.run(case.folder, stdin=source)
        feeder.join()
    return done


def unread(run):
    """The output goes to a pipe that does not block and is read only afterwards."""
    source, sink = os.pipe()
    os.set_blocking(sink, False)
    with open(source, "rb") as source:
        with open(sink, "wb") as sink:
            done = run(stdout=sink)
        done.printed = source.read()
    return done


def broken(run, pipe_kills):
    """The output goes to a pipe that nobody reads."""
    source, sink = os.pipe()
    os.close(source)
    with open(sink, "wb") as sink:
        return run(stdout=sink, pipe_kills=pipe_kills)

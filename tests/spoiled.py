"""Running a lister whose reads and writes are spoiled by faults.c, and judging what it prints."""

import os
import pathlib
import subprocess
import tempfile

HERE = pathlib.Path(__file__).resolve().parent
SECONDS = 20


class Case:
    """A folder of tests/cases."""

    def __init__(self, name):
        self.name, self.folder = name, HERE / "cases" / name
        self.calls, self.wanted = (self.folder / "calls").read_bytes(), (self.folder / "stdout").read_bytes()


class Done:
    """What a run printed and said, how it ended (None: not at all), and how many calls on the spoiled file it made."""

    def __init__(self, printed, said, code, calls=0):
        self.printed, self.said, self.code, self.calls = printed or b"", said or b"", code, calls


class Spoiled:
    """A lister, and the library that is loaded into it in a temporary folder."""

    def __init__(self, lister):
        self.lister = pathlib.Path(lister).resolve()

    def __enter__(self):
        self.held = tempfile.TemporaryDirectory()
        self.library, self.count = (pathlib.Path(self.held.name) / name for name in ("faults.so", "count"))
        subprocess.run(["cc", "-std=c11", "-O1", "-shared", "-fPIC", HERE / "faults.c", "-o", self.library], check=True)
        return self

    def __exit__(self, *_):
        self.held.cleanup()

    def run(self, folder, arguments=(), stdin=None, stdout=subprocess.PIPE, closed=None, pipe_kills=True, **faults):
        """Runs it in a folder on its calls, or on an open stdin, or with a descriptor closed. `faults` are the variables of faults.c,
        `at` both FROM and TO."""
        environment = dict(os.environ)
        if faults:
            self.count.write_text("0")
            faults |= {"count": self.count} | ({"from": faults["at"], "to": faults["at"]} if "at" in faults else {})
            environment |= {"LD_PRELOAD": str(self.library)} | {"FAULT_" + name.upper(): str(value) for name, value in faults.items()}
        close = None if closed is None else lambda: os.close(closed)
        with open(folder / "calls", "rb") as calls:
            try:
                done = subprocess.run([self.lister, *arguments], cwd=folder, stdin=calls if stdin is None else stdin, stdout=stdout,
                                      stderr=subprocess.PIPE, env=environment, timeout=SECONDS, restore_signals=pipe_kills,
                                      preexec_fn=close)
            except subprocess.TimeoutExpired as late:
                return Done(late.stdout, late.stderr, None)
        done = Done(done.stdout, done.stderr, done.returncode, int(self.count.read_text()) if faults else 0)
        if done.calls < faults.get("from", 0):
            done.said += b"(call %d is never made)" % faults["from"]
        return done


def shown(data):
    return f"{len(data):,} bytes" + (f" that end in {data[-50:]!r}" if data else "")


def wrong(done, wanted, name=None, instead=None):
    """What is wrong with a run, or None. It ends with 0 and prints what is wanted without a word, or, where a name is given, says
    one line on the file of this name and prints what `instead` holds of."""
    if done.code != 0:
        return "does not end" if done.code is None else f"ends with {done.code}, says {done.said[-200:]!r}"
    if done.printed == wanted and not done.said:
        return None
    one_line = done.said.count(b"\n") == 1 and done.said.endswith(b"\n")
    if name and one_line and done.said.startswith(name.encode() + b": ") and instead(done.printed):
        return None
    return f"prints {shown(done.printed)}, says {done.said[-200:]!r}"

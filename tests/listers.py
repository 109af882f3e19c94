"""Running a lister in a folder of its own."""

import pathlib
import subprocess
import tempfile

ORACLE = pathlib.Path(__file__).resolve().parent.parent / "oracle" / "target" / "oracle"
SECONDS = 10


class Failed(Exception):
    """The lister did not end well; says how."""


class Runner:
    """A lister and a temporary folder with its deck.bin and window.bin. The
    Rust's takes the two files as arguments, after `listing`."""

    def __init__(self, lister):
        self.lister = pathlib.Path(lister).resolve()
        self.arguments = ["listing", "deck.bin", "window.bin"] if self.lister == ORACLE else []

    def __enter__(self):
        self.held = tempfile.TemporaryDirectory()
        self.folder = pathlib.Path(self.held.name)
        return self

    def __exit__(self, *_):
        self.held.cleanup()

    def run(self, deck, window, calls):
        """What the lister prints; None is a file that is not there."""
        for name, data in (("deck.bin", deck), ("window.bin", window)):
            (self.folder / name).unlink(missing_ok=True)
            if data is not None:
                (self.folder / name).write_bytes(data)
        return run(self.lister, self.arguments, self.folder, calls)


def run(lister, arguments, folder, calls):
    """What the lister prints."""
    return finished(lister, arguments, folder, calls).stdout


def finished(lister, arguments, folder, calls):
    """A run that has ended well."""
    try:
        done = subprocess.run([lister, *arguments], cwd=folder, input=calls or b"", capture_output=True,
                              timeout=SECONDS)
    except subprocess.TimeoutExpired:
        raise Failed(f"does not end within {SECONDS} s") from None
    if done.returncode != 0:
        raise Failed(f"exit code {done.returncode}: {done.stderr[-300:].decode(errors='replace')}")
    return done


def files(folder):
    """Deck, window and calls of a case; a missing file is empty."""
    paths = [folder / name for name in ("deck.bin", "window.bin", "calls")]
    return [path.read_bytes() if path.exists() else b"" for path in paths]


def outcome(lines):
    """What a listing is counted as."""
    if lines.startswith(b"0 "):
        return "refused by " + lines.split()[2].decode()
    return "listed" if lines else "nothing printed"

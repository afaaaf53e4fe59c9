"""Finds famlint, and runs it."""
import os
import shutil
import subprocess
import threading
from dataclasses import dataclass
from pathlib import Path
from typing import NamedTuple

from .findings import is_told

NOT_FOUND = 127
NOT_RUN = 126
SIGNAL = 128


class NoProgram(Exception):
    """There is no famlint, or it can't be run: what to tell, and the status, as a shell has it."""

    def __init__(self, status, told):
        super().__init__(told)
        self.status = status


class Ran(NamedTuple):
    """The status of a run, its output, and famlint's own lines on the error stream."""

    status: int
    output: str
    told: list


@dataclass(frozen=True)
class Program:
    """A famlint. One that compiles takes minutes for each run."""

    path: str
    compiles: bool

    def run(self, words, notice):
        """Runs it with these words. Each line of its error stream that is not famlint's own goes to `notice`, at once."""
        try:
            process = subprocess.Popen(
                [self.path, *words], stdin=subprocess.DEVNULL, stdout=subprocess.PIPE, stderr=subprocess.PIPE)
        except (OSError, ValueError) as fault:
            raise NoProgram(NOT_RUN, f"{self.path} can't be run: {getattr(fault, 'strerror', None) or fault}") from None
        told = []

        def listen():
            for line in process.stderr:
                text = line.decode("utf-8", "replace").rstrip("\n")
                told.append(text) if is_told(text) else notice(text)

        listener = threading.Thread(target=listen, daemon=True)
        listener.start()
        with process:
            output = process.stdout.read().decode("utf-8", "replace")
            listener.join()
        status = process.returncode if process.returncode >= 0 else SIGNAL - process.returncode
        return Ran(status, output, told)


def at(path):
    """The famlint at a path. famlint.sh compiles where the proved program is not built."""
    path = str(path)
    built = Path(path).resolve().parent / "crates/famlint/out/famlint"
    return Program(path, os.path.basename(path) == "famlint.sh" and not os.access(built, os.X_OK))


def given(name):
    """The famlint that $FAMLINT names: a path, or a name on the path."""
    found = shutil.which(name)
    if found:
        return at(found)
    if os.path.isdir(name):
        raise NoProgram(NOT_RUN, f"$FAMLINT is {name}, a folder")
    if os.path.exists(name):
        raise NoProgram(NOT_RUN, f"$FAMLINT is {name}, which may not be run")
    raise NoProgram(NOT_FOUND, f"$FAMLINT is {name}, and nothing stands there")


def folders_of(script):
    """The folder in which the script was called, and the one in which it stands, where it was called by a link."""
    called = Path(os.path.abspath(script)).parent
    stands = Path(script).resolve().parent
    return [called] if called == stands else [called, stands]


def find(script):
    """The famlint of $FAMLINT, or beside the script, or on the path, or famlint.sh of the checkout."""
    if os.environ.get("FAMLINT"):
        return given(os.environ["FAMLINT"])
    folders = folders_of(script)
    for folder in folders:
        if os.access(folder / "famlint", os.X_OK) and (folder / "famlint").is_file():
            return at(folder / "famlint")
    on_path = shutil.which("famlint")
    if on_path:
        return at(on_path)
    checkout = folders[-1].parent
    if os.access(checkout / "famlint.sh", os.X_OK):
        return at(checkout / "famlint.sh")
    looked = ", ".join(str(folder / "famlint") for folder in folders)
    raise NoProgram(
        NOT_FOUND, f"there is no famlint: it is not at {looked}, not on the path, and there is no {checkout / 'famlint.sh'}; "
        "set FAMLINT to where it is")

"""Known alarms: a file of those that are borne, by their file, kind, region and the text of their line, so that they stay known where lines
move. The names of files are from the folder of the baseline, so that it may be used from everywhere."""
import json
import os
import tempfile
from collections import Counter

FORMAT = "famlint-check baseline 1"
NOT_READ = 2
NOT_WRITTEN = 7


class NoBaseline(Exception):
    """The baseline can't be read or written, or is none: what to tell, and the status."""

    def __init__(self, told, status):
        super().__init__(told)
        self.status = status


def key_of(alarm, source, folder):
    """What an alarm is known by."""
    return (os.path.relpath(alarm.path, folder), alarm.kind, alarm.region or "", source.words(alarm.place))


def folder_of(path):
    return os.path.dirname(os.path.realpath(path))


def read(path):
    """How often each alarm is known."""
    try:
        with open(path, encoding="utf-8") as file:
            made = json.load(file)
    except OSError as fault:
        raise NoBaseline(
            f"{path}: error: the baseline cannot be read: {fault.strerror}; --write-baseline={path} writes one", NOT_READ) from None
    except ValueError as fault:
        where = f":{fault.lineno}:{fault.colno}" if isinstance(fault, json.JSONDecodeError) else ""
        raise NoBaseline(f"{path}{where}: error: this is no baseline of famlint-check", NOT_READ) from None
    try:
        if made["format"] != FORMAT:
            raise KeyError
        return Counter((each["file"], each["kind"], each["region"], each["source"]) for each in made["alarms"])
    except (KeyError, TypeError):
        raise NoBaseline(f"{path}: error: this is no baseline of famlint-check", NOT_READ) from None


def text_of(keys):
    """The text of a baseline, with one line for each alarm, in an order that does not depend on places."""
    lines = [
        json.dumps({"file": file, "kind": kind, "region": region, "source": source}) for file, kind, region, source in sorted(keys)]
    return '{"format": "%s", "alarms": [\n%s\n]}\n' % (FORMAT, ",\n".join(lines)) if lines else '{"format": "%s", "alarms": []}\n' % FORMAT


def write(path, keys):
    """Writes a baseline of these alarms; the old one stays as it is where that fails."""
    target, new = os.path.realpath(path), None
    if os.path.exists(target) and not os.path.isfile(target):
        raise NoBaseline(f"{path}: error: the baseline cannot be written: it is no file", NOT_WRITTEN)
    try:
        with tempfile.NamedTemporaryFile(
                "w", encoding="utf-8", dir=os.path.dirname(target), prefix=".famlint-baseline-", delete=False) as file:
            new = file.name
            file.write(text_of(keys))
        os.chmod(new, 0o666 & ~mask())
        os.replace(new, target)
    except OSError as fault:
        if new:
            os.unlink(new)
        raise NoBaseline(f"{path}: error: the baseline cannot be written: {fault.strerror}", NOT_WRITTEN) from None


def mask():
    """The mask of new files."""
    old = os.umask(0)
    os.umask(old)
    return old


class Known:
    """The known alarms of a baseline, each taken once."""

    def __init__(self, path):
        self.folder = folder_of(path)
        self.left = read(path)

    def takes(self, alarm, source):
        """Whether the alarm is known. Where a file has more of them than are known, the later ones are not."""
        key = key_of(alarm, source, self.folder)
        if not self.left[key]:
            return False
        self.left[key] -= 1
        return True

    def mended(self, paths):
        """How many known alarms of these files are gone."""
        files = {os.path.relpath(path, self.folder) for path in paths}
        return sum(number for key, number in self.left.items() if key[0] in files)

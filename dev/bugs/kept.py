"""What earlier runs came to, kept outside of the repository by the sums of all that was read."""
import hashlib
import json
import os
from pathlib import Path

HOME = Path(os.environ.get("XDG_CACHE_HOME") or Path.home() / ".cache") / "viz-bugs"


def name_of(stamp, bug):
    """The name under which it is kept what a bug came to, on files of this sum."""
    return hashlib.sha256(repr((stamp, bug.name, bug.file.read_bytes())).encode()).hexdigest()


def keep(name, result):
    """Keeps what a bug came to."""
    HOME.mkdir(parents=True, exist_ok=True)
    written = HOME / f"{name}.{os.getpid()}"
    written.write_text(json.dumps(result), encoding="utf-8")
    written.replace(HOME / name)


def known(name):
    """What an earlier run came to, None where none tried the same."""
    try:
        kind, said = json.loads((HOME / name).read_text(encoding="utf-8"))
        return kind, said
    except (OSError, ValueError):
        return None

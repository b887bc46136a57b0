"""What the tests of relay/from-murmurd share: databases that a mumble-server made, and what becomes of them."""
import functools
import hashlib
import json
import os
import subprocess
import tempfile

from mumble_server import copied, made_by_itself
from trial import RELAY

TOP = os.path.dirname(RELAY)
NO_DIGEST = "0" * 64


def sha(name, text):
    return hashlib.new(name, text.encode()).hexdigest()


@functools.cache
def base():
    """A database that a mumble-server has made; it goes when the tests have ended."""
    folder = tempfile.TemporaryDirectory()
    made = made_by_itself(folder.name)
    made.kept = folder
    return made


def filled(folder, script, *settings):
    """A server that does not run yet, on such a database after some SQL."""
    server = copied(base(), folder, *settings)
    server.fill(script)
    return server


def seen(folder):
    """All that is in a folder, files with what is in them, but those in which SQLite marks who reads a log."""
    found = {}
    for name in sorted(os.listdir(folder)):
        path = os.path.join(folder, name)
        found[name] = None if os.path.isdir(path) or name.endswith("-shm") else bytes_of(path)
    return found


def bytes_of(path):
    with open(path, "rb") as file:
        return file.read()


def run(*words, stdout=subprocess.PIPE):
    """What relay/from-murmurd does with these words."""
    return subprocess.run([os.path.join(RELAY, "from-murmurd"), *words], stdout=stdout, stderr=subprocess.PIPE,
                          text=True, timeout=300, check=False)


def migrated(*words):
    """The same; the folder of the database is as it was before."""
    folder = os.path.dirname(next(word for word in words if not word.startswith("--") and not word.isdigit()))
    before = seen(folder)
    done = run(*words)
    assert seen(folder) == before, (sorted(before), os.listdir(folder))
    return done


def taken(*words):
    """The configuration that is written for these words, and the lines that are said of it. The program accepts it."""
    done = migrated(*words)
    assert done.returncode == 0, done.stderr
    with tempfile.NamedTemporaryFile("w", suffix=".json") as file:
        file.write(done.stdout)
        file.flush()
        checked = subprocess.run([os.path.join(TOP, "docs/check-configuration"), file.name], capture_output=True,
                                 text=True, timeout=300, check=False)
    assert checked.returncode == 0 and ": accepted" in checked.stdout, checked.stdout + checked.stderr
    lines = done.stderr.splitlines()
    assert all(line.startswith("relay/from-murmurd: ") for line in lines), done.stderr
    return json.loads(done.stdout), [line.removeprefix("relay/from-murmurd: ") for line in lines]


def refused(status, reason, *words):
    """Makes sure that nothing is written for these words, with this status and reason."""
    done = migrated(*words)
    assert (done.returncode, done.stdout) == (status, ""), (done.returncode, done.stdout[:200], done.stderr)
    lines = done.stderr.splitlines()
    assert len(lines) == 1 and reason in lines[0], (reason, done.stderr)

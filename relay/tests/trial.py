"""What the tests share: a relay and a server below a folder, and how checks are run and reported."""
import os
import signal
import socket
import subprocess
import time
import traceback

os.environ["PATH"] += ":/usr/sbin"
RELAY = os.path.dirname(os.path.dirname(os.path.abspath(__file__)))
PROGRAM = os.path.abspath(os.environ.get("MURMUR") or os.path.join(RELAY, "../crates/murmur/out/murmur"))
WHY = os.path.abspath(os.environ.get("MURMUR_WHY") or os.path.join(RELAY, "../crates/murmur_why/out/murmur_why"))
# What makes `relay/try` take a program that was built without proofs.
UNPROVED = ["--unproved"] if os.path.basename(os.path.realpath(PROGRAM)).startswith("murmur-unproved") else []
PASSWORD = "a password for the test"


def run_checks(checks, *values):
    """Runs each check and prints a line for it. The status of the program: 1 where one failed."""
    failed = 0
    for check in checks:
        began = time.monotonic()
        try:
            said = check(*values)
            print(f"ok      {check.__name__} ({said or f'{time.monotonic() - began:.1f} s'})", flush=True)
        except Exception:
            failed += 1
            print(f"FAILED  {check.__name__}\n{traceback.format_exc()}", flush=True)
    return 1 if failed else 0


def wait(asked, seconds):
    end = time.monotonic() + seconds
    while not asked():
        if time.monotonic() > end:
            raise TimeoutError("it has not come about")
        time.sleep(0.05)


def is_asleep(process):
    """Whether all threads of a process sleep, and so it has done what there was to do."""
    folder, states = f"/proc/{process.pid}/task", []
    try:
        for thread in os.listdir(folder):
            with open(f"{folder}/{thread}/stat") as stat:
                states.append(stat.read().rpartition(")")[2].split()[0])
    except OSError:
        return False
    return all(state == "S" for state in states)


def free_port():
    with socket.socket() as probe:
        probe.bind(("127.0.0.1", 0))
        return probe.getsockname()[1]


def said_by(path, command):
    """What haproxy answers on one of its sockets."""
    with socket.socket(socket.AF_UNIX) as admin:
        admin.connect(path)
        admin.sendall(command)
        admin.shutdown(socket.SHUT_WR)
        return admin.makefile("rb").read()


class Installation:
    """A relay and a server below a folder, started by `relay/try`."""

    def __init__(self, folder):
        self.folder, self.port, self.process = folder, free_port(), None
        os.makedirs(folder, exist_ok=True)

    def start(self):
        with open(self.path("log"), "w") as log:
            self.process = subprocess.Popen([os.path.join(RELAY, "try"), *UNPROVED, "-p", str(self.port), self.folder],
                                            stdin=subprocess.DEVNULL, stdout=log, stderr=log)
        wait(lambda: "Force TCP mode" in self.log() or self.process.poll() is not None, 60)
        if self.process.poll() is not None:
            raise SystemExit("relay/try has ended:\n" + self.log())
        return self

    def stop(self):
        if self.process.poll() is None:
            self.process.send_signal(signal.SIGTERM)
        self.process.wait(20)

    def log(self):
        """What was printed since the last start."""
        with open(self.path("log")) as log:
            return log.read()

    def path(self, name):
        return os.path.join(self.folder, name)

    def haproxy(self, command):
        """What the relay answers on its socket."""
        return said_by(self.path("admin.sock"), command.encode() + b"\n").decode().strip()

    def set_password(self):
        """Lets SuperUser in by the password of the tests; a start makes the files of the folder before."""
        self.start().stop()
        subprocess.run([os.path.join(RELAY, "password"), self.path("murmur.json")], text=True, check=True,
                       input=f"{PASSWORD}\n{PASSWORD}\n", capture_output=True)
        return self

"""A server that is started for a trial, and what the system says of it."""

import os
import re
import socket
import subprocess
import sys
import time

HERE = os.path.dirname(os.path.abspath(__file__))
TOP = os.path.join(HERE, "../..")
PROGRAM = os.path.abspath(os.environ.get("MURMUR") or os.path.join(TOP, "crates/murmur/out/murmur"))
# How long a server may take to open its address, and to end once its last connection has closed, in seconds.
OPENING, ENDING = 30, 60
CHANNELS, WORKERS = 2, 4


def free_port():
    with socket.socket() as probe:
        probe.bind(("127.0.0.1", 0))
        return probe.getsockname()[1]


def connect(port, receive_room=None):
    """A connection whose calls do not wait."""
    stream = socket.socket()
    if receive_room is not None:
        stream.setsockopt(socket.SOL_SOCKET, socket.SO_RCVBUF, receive_room)
    stream.settimeout(20)
    stream.connect(("127.0.0.1", port))
    stream.setsockopt(socket.IPPROTO_TCP, socket.TCP_NODELAY, 1)
    stream.setblocking(False)
    return stream


class Server:
    """A server at a port of its own, which ends after so many connections. With `journal` it also writes what it did."""

    def __init__(self, folder, connections, journal=False, pace=None, channels=CHANNELS):
        self.port, self.connections = free_port(), connections
        self.output_path, self.log_path = os.path.join(folder, "output"), os.path.join(folder, "log")
        words = [PROGRAM, "serve", f"127.0.0.1:{self.port}", str(connections)] + ["journal"] * journal
        environment = {**os.environ, "MURMUR_LOG": "none", **({"MURMUR_PACE": pace} if pace else {})}
        make = subprocess.Popen([os.path.join(HERE, "../make-config"), str(channels), "0", "0", str(WORKERS)],
                                stdout=subprocess.PIPE)
        with open(self.output_path, "w") as output, open(self.log_path, "w") as log:
            self.process = subprocess.Popen(words, stdin=make.stdout, stdout=output, stderr=log, env=environment)
        make.wait()
        self.await_opening()

    def await_opening(self):
        """It listens once the kernel lists its port; asking by a connection would use one up."""
        listening = re.compile(rf": 0100007F:{self.port:04X} \S+ 0A ")
        end = time.monotonic() + OPENING
        while time.monotonic() < end and self.process.poll() is None:
            with open("/proc/net/tcp") as table:
                if listening.search(table.read()):
                    return
            time.sleep(0.02)
        self.stop()
        sys.exit(f"the server has not opened its port: {self.read(self.log_path).strip()}")

    @staticmethod
    def read(path):
        with open(path) as file:
            return file.read()

    def memory(self, key="VmRSS"):
        """Resident memory in kilobytes, now or (`VmHWM`) at the most; 0 once it has ended."""
        try:
            status = self.read(f"/proc/{self.process.pid}/status")
        except OSError:
            return 0
        return next((int(line.split()[1]) for line in status.splitlines() if line.startswith(key)), 0)

    def processor_seconds(self):
        """How long its threads ran, and how long they waited for a processor."""
        ran = waited = 0
        try:
            for thread in os.listdir(f"/proc/{self.process.pid}/task"):
                times = self.read(f"/proc/{self.process.pid}/task/{thread}/schedstat").split()
                ran, waited = ran + int(times[0]), waited + int(times[1])
        except OSError:
            pass
        return ran / 1e9, waited / 1e9

    def use_up(self):
        """Opens and closes what is left of its connections, until it has ended."""
        end = time.monotonic() + ENDING
        while self.process.poll() is None and time.monotonic() < end:
            try:
                connect(self.port).close()
            except OSError:
                time.sleep(0.01)

    def finish(self):
        """Its status (None where it did not end), and the totals of its last line."""
        self.use_up()
        status = self.process.poll()
        self.stop()
        lines = self.read(self.output_path).splitlines()
        words = lines[-1].split() if lines else []
        if words[:1] != ["served"]:
            return status, {}
        return status, {name: int(number) for name, number in zip(words[1::2], words[2::2])}

    def audit(self):
        """What `murmur audit` says of the journal that it wrote before its last line."""
        journal = self.read(self.output_path).rpartition("served ")[0]
        audited = subprocess.run([PROGRAM, "audit"], input=journal, capture_output=True, text=True)
        return (audited.stdout + audited.stderr).strip()

    def stop(self):
        if self.process.poll() is None:
            self.process.kill()
        self.process.wait()

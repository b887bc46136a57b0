#!/usr/bin/env python3
"""A conversation of two stock clients (Debian's `mumble`) through the relay. MURMUR is the program.

usage: stock_client_test.py [FOLDER [PORT CERTIFICATE]]

Ann transmits a tone of 440 Hz all the time and bob one of 660 Hz, each on a display of its own, and what comes out
of their loudspeakers is recorded. They hear each other for a minute, change channels, mute, are denied a channel and
are kicked. What the client itself says of it is read from its log. Pictures of the windows go to FOLDER
(relay/out/pictures). With PORT it is the server that listens there, of which SuperUser has the password of the tests
and whose certificate is the file CERTIFICATE. Prints a line a check; the status is 1 where one failed.
"""
import array
import base64
import hashlib
import math
import os
import re
import shutil
import sqlite3
import subprocess
import sys
import tempfile
from concurrent.futures import ThreadPoolExecutor

from client import PATIENCE, Client
from reader.mumble import VOICE
from trial import PASSWORD, RELAY, Installation, run_checks, wait

# Samples a second of a recording.
RATE = 8000
TONES = {"ann": 440, "bob": 660}
TONE_SECONDS = 900
# How loud a loudspeaker is that sounds: of 32,767.
LOUD = 100
# Seconds that go by between a change and what is heard of it.
SETTLE = 1.5
SETTINGS = """[General]
lastupdate=2
[audio]
input=PulseAudio
output=PulseAudio
transmit=0
denoise=false
[pulseaudio]
input=mic_{name}.monitor
output=out_{name}
[net]
tcponly=true
[tts]
enable=false
[ui]
updatecheck=false
plugincheck=false
usage=false
disablepubliclist=true
askonquit=false
WindowLayout=0
"""


class Children:
    """The processes that were started here; they are ended in the reverse order."""

    def __init__(self):
        self.running = []

    def start(self, words, log, **more):
        with open(log, "ab") as out:
            child = subprocess.Popen(words, stdin=subprocess.DEVNULL, stdout=out, stderr=out, **more)
        self.running.append(child)
        return child

    def end(self):
        for child in reversed(self.running):
            if child.poll() is None:
                child.terminate()
                try:
                    child.wait(5)
                except subprocess.TimeoutExpired:
                    child.kill()
                    child.wait()


class Sound:
    """A sound server without devices: for each client a microphone, into which a tone is played, and a loudspeaker."""

    def __init__(self, folder, children):
        self.folder = home = os.path.join(folder, "sound")
        os.makedirs(os.path.join(home, "run"), mode=0o700)
        self.address = os.path.join(home, "socket")
        words = ["pulseaudio", "-n", "--daemonize=no", "--use-pid-file=no", "--exit-idle-time=-1", "--realtime=no",
                 "--high-priority=no", "--disallow-exit",
                 "-L", f"module-native-protocol-unix socket={self.address} auth-anonymous=1"]
        for name in TONES:
            words += ["-L", f"module-null-sink sink_name=mic_{name} rate=48000",
                      "-L", f"module-null-sink sink_name=out_{name} rate=48000"]
        log = os.path.join(folder, "sound.log")
        children.start(words, log, env={**os.environ, "HOME": home, "XDG_RUNTIME_DIR": os.path.join(home, "run"),
                                        "DBUS_SESSION_BUS_ADDRESS": "unix:path=/nonexistent"})
        wait(lambda: os.path.exists(self.address), PATIENCE)
        for name, frequency in TONES.items():
            file = os.path.join(home, f"{name}.tone")
            second = array.array("h", (int(8000 * math.sin(2 * math.pi * frequency * i / RATE)) for i in range(RATE)))
            with open(file, "wb") as tone:
                tone.write(second.tobytes() * TONE_SECONDS)
            children.start([*self.tool("pacat"), "-p", "-d", f"mic_{name}", file], log, env=self.environment())

    def environment(self):
        return {**os.environ, "PULSE_SERVER": f"unix:{self.address}"}

    @staticmethod
    def tool(name):
        return [name, "--raw", "--format=s16le", f"--rate={RATE}", "--channels=1", "--latency-msec=20"]

    def recorded(self, names, seconds, meanwhile):
        """What comes out of these loudspeakers within this many seconds, as samples; `meanwhile()` takes as long."""
        parts = {}
        for name in names:
            file = os.path.join(self.folder, f"{name}.raw")
            with open(file, "wb") as samples:
                parts[file] = subprocess.Popen([*self.tool("parec"), "-d", f"out_{name}.monitor"], stdout=samples,
                                               stderr=subprocess.DEVNULL, env=self.environment())
        meanwhile()
        heard = {}
        for name, (file, part) in zip(names, parts.items()):
            part.kill()
            part.wait()
            with open(file, "rb") as samples:
                heard[name] = array.array("h", samples.read()[:int(seconds * RATE) * 2 & ~1])
        return heard


def level(samples):
    return math.sqrt(sum(x * x for x in samples) / len(samples))


def pitch(samples):
    """Crossings of zero by two a second: the frequency of a tone."""
    crossings = sum((x < 0) != (y < 0) for x, y in zip(samples, samples[1:]))
    return crossings / 2 / (len(samples) / RATE)


def tenths(samples, frequency):
    """How many tenths of each second of a recording have that tone."""
    tenth = RATE // 10
    parts = [samples[at:at + tenth] for at in range(0, len(samples) - tenth + 1, tenth)]
    good = [level(part) > LOUD and abs(pitch(part) - frequency) < 30 for part in parts]
    return [sum(good[at:at + 10]) for at in range(0, len(good) - 9, 10)]


def seconds_heard(samples, frequency):
    """In how many of its seconds a recording has that tone at least half of the time."""
    return sum(count >= 5 for count in tenths(samples, frequency))


class StockClient:
    """Debian's client with a display, a message bus and settings of its own."""

    def __init__(self, name, at, folder, sound, children):
        self.name, self.port = name, at.port
        self.home = home = os.path.join(folder, name)
        for below in (".config/Mumble", ".local/share/Mumble/Mumble", "Documents", "run"):
            os.makedirs(os.path.join(home, below), mode=0o700)
        # A certificate in the place of its automatic backup is taken without the wizard.
        key, own = os.path.join(home, "key.pem"), os.path.join(home, "cert.pem")
        subprocess.run(["openssl", "req", "-x509", "-newkey", "rsa:2048", "-nodes", "-days", "2", "-subj", f"/CN={name}",
                        "-addext", "extendedKeyUsage=clientAuth", "-keyout", key, "-out", own], check=True,
                       stderr=subprocess.DEVNULL)
        subprocess.run(["openssl", "pkcs12", "-export", "-inkey", key, "-in", own, "-passout", "pass:", "-out",
                        os.path.join(home, "Documents/MumbleAutomaticCertificateBackup.p12")], check=True)
        with open(os.path.join(home, ".config/Mumble/Mumble.conf"), "w") as settings:
            settings.write(SETTINGS.format(name=name))
        # The server's certificate, which it then takes without asking.
        with sqlite3.connect(os.path.join(home, ".local/share/Mumble/Mumble/mumble.sqlite")) as kept:
            kept.execute("CREATE TABLE cert (id INTEGER PRIMARY KEY AUTOINCREMENT, hostname TEXT, port INTEGER, digest TEXT)")
            kept.execute("CREATE UNIQUE INDEX cert_host_port ON cert(hostname, port)")
            kept.execute("INSERT INTO cert (hostname, port, digest) VALUES (?, ?, ?)", ("127.0.0.1", at.port, digest_of(at.path("cert.pem"))))
        kept.close()
        bus = os.path.join(home, "bus")
        children.start(["dbus-daemon", "--session", "--nofork", f"--address=unix:path={bus}"], os.path.join(home, "bus.log"))
        display = os.path.join(home, "display")
        with open(display, "w") as number:
            children.start(["Xvfb", "-displayfd", str(number.fileno()), "-screen", "0", "900x600x24", "-nolisten", "tcp"],
                           os.path.join(home, "display.log"), pass_fds=(number.fileno(),))
        wait(lambda: os.path.getsize(display) and os.path.exists(bus), PATIENCE)
        with open(display) as number:
            shown = f":{number.read().strip()}"
        self.environment = {**os.environ, "HOME": home, "XDG_RUNTIME_DIR": os.path.join(home, "run"), "DISPLAY": shown,
                            "DBUS_SESSION_BUS_ADDRESS": f"unix:path={bus}", "PULSE_SERVER": f"unix:{sound.address}",
                            "LANG": "C.UTF-8", "QT_QPA_PLATFORM": "xcb"}
        for variable in ("XDG_CONFIG_HOME", "XDG_DATA_HOME", "XDG_CACHE_HOME"):
            self.environment.pop(variable, None)
        self.process = children.start(without_name_server(folder) + ["mumble", "-m", self.url("")],
                                      os.path.join(home, "mumble.log"), env=self.environment)

    def url(self, channel):
        return f"mumble://{self.name}@127.0.0.1:{self.port}/{channel.replace(' ', '%20')}"

    def run(self, *words):
        return subprocess.run(words, env=self.environment, capture_output=True, text=True, timeout=20, check=True).stdout

    def call(self, method, *values):
        return self.run("dbus-send", "--session", "--print-reply", "--dest=net.sourceforge.mumble.mumble", "/",
                        f"net.sourceforge.mumble.Mumble.{method}", *values)

    def enter(self, channel):
        self.call("openUrl", f"string:{self.url(channel)}")

    def mute(self, is_mute):
        self.call("setSelfMuted", f"boolean:{'true' if is_mute else 'false'}")

    def picture(self, file):
        self.run("import", "-window", "root", "-trim", "+repage", file)

    def log(self):
        """The text of the log in its window: the log is clicked, marked and copied."""
        self.run("xdotool", "mousemove", "200", "300", "click", "1", "key", "ctrl+a", "ctrl+c", "sleep", "0.3")
        text = self.run("xclip", "-selection", "clipboard", "-o")
        self.run("xdotool", "click", "1")
        return text


def digest_of(certificate):
    """The SHA-1 of a certificate, by which the client remembers it."""
    with open(certificate) as pem:
        body = "".join(line for line in pem.read().split("\n") if not line.startswith("-"))
    return hashlib.sha1(base64.b64decode(body)).hexdigest()


def without_name_server(folder):
    """The client asks the name server for a record of its host even where that is an address. Here it finds this
    machine alone in its resolv.conf, so that nothing leaves the machine and it need not wait."""
    file = os.path.join(folder, "resolv.conf")
    with open(file, "w") as conf:
        conf.write("nameserver 127.0.0.1\n")
    words = ["unshare"] + ([] if os.getuid() == 0 else ["-r"])
    words += ["-m", "sh", "-c", 'mount --bind "$0" "$(realpath /etc/resolv.conf)" && exec "$@"', file]
    return words if subprocess.run([*words, "true"], stderr=subprocess.DEVNULL).returncode == 0 else []


class Conversation:
    """The checks, in the order in which they are made."""

    def __init__(self, at, sound, ann, bob, pictures):
        self.at, self.sound, self.ann, self.bob, self.pictures = at, sound, ann, bob, pictures
        self.probe = Client(at.port).log_in("SuperUser", PASSWORD)

    def done(self, work):
        """What some work gives. The probe pings meanwhile: the relay closes a client from which nothing comes for ten
        seconds, and the work takes longer where the machine does much else."""
        with ThreadPoolExecutor(1) as worker:
            given = worker.submit(work)
            while not given.done():
                self.probe.stay(0.1)
            return given.result()

    def picture(self, what):
        for client in (self.ann, self.bob):
            self.done(lambda: client.picture(os.path.join(self.pictures, f"{what}-{client.name}.png")))

    def settle(self):
        self.probe.stay(SETTLE)

    def where(self, client):
        user = self.probe.user(client.name)
        return user and user[1]["channel"]

    def hear(self, seconds, ann, bob):
        """Whether ann and bob hear the other in each second, or in none."""
        samples = self.sound.recorded(["ann", "bob"], seconds, lambda: self.probe.stay(seconds + 0.5))
        heard = self.done(lambda: {"ann": seconds_heard(samples["ann"], TONES["bob"]),
                                   "bob": seconds_heard(samples["bob"], TONES["ann"])})
        for name, wanted in (("ann", ann), ("bob", bob)):
            if wanted:
                assert heard[name] >= seconds - 1, f"{name} hears the other in {heard[name]} of {seconds} seconds"
            else:
                assert level(samples[name]) < LOUD, f"{name} hears something: level {level(samples[name]):.0f}"
        return f"ann in {heard['ann']} and bob in {heard['bob']} of {seconds} seconds"

    def they_connect(self):
        self.probe.wait_until(lambda: self.probe.user("ann") and self.probe.user("bob"), 60)
        self.probe.wait_until(lambda: {p[1] for k, p in self.probe.frames if k == VOICE} >= {
            self.probe.user("ann")[0], self.probe.user("bob")[0]} or None, 30)
        self.probe.frames.clear()

    def they_hear_each_other_for_a_minute(self):
        self.settle()
        said = self.hear(60, ann=True, bob=True)
        self.probe.stay(0.1)
        self.picture("talk")
        return said

    def they_change_channels(self):
        room = self.probe.channels["Room 1"]
        self.done(lambda: self.bob.enter("Room 1"))
        self.probe.wait_until(lambda: self.where(self.bob) == room or None)
        self.settle()
        apart = self.hear(3, ann=False, bob=False)
        self.done(lambda: self.ann.enter("Room 1"))
        self.probe.wait_until(lambda: self.where(self.ann) == room or None)
        self.settle()
        together = self.hear(4, ann=True, bob=True)
        self.picture("room")
        return f"apart: {apart}; together: {together}"

    def one_mutes(self):
        self.done(lambda: self.ann.mute(True))
        self.probe.wait_until(lambda: self.probe.user("ann")[1].get("self_mute") or None)
        self.settle()
        mute = self.hear(3, ann=True, bob=False)
        self.picture("mute")
        self.done(lambda: self.ann.mute(False))
        self.probe.wait_until(lambda: self.probe.user("ann")[1].get("self_mute") is False or None)
        self.settle()
        return f"mute: {mute}; then: {self.hear(3, ann=True, bob=True)}"

    def one_is_denied_by_the_permission(self):
        self.done(lambda: self.ann.enter("Staff"))
        self.settle()
        self.picture("denied")
        text = self.done(self.ann.log)
        line = re.search(r".*\bdenied\b.*", text, re.I)
        assert line and "Enter" in line.group() and "Staff" in line.group(), text
        assert self.where(self.ann) == self.probe.channels["Room 1"]
        return line.group()

    def one_is_kicked(self):
        self.probe.kick(self.probe.user("bob")[0], "the end of the trial")
        self.probe.wait_until(lambda: self.probe.user("bob") is None or None)
        self.settle()
        self.picture("kicked")
        text = self.done(self.bob.log)
        line = re.search(r".*\bkicked\b.*", text, re.I)
        assert line and "the end of the trial" in line.group(), text
        return line.group()

    def nobody_was_disconnected_otherwise(self):
        text = self.done(self.ann.log)
        assert not re.search("disconnected|connection failed|timed out|reconnect", text, re.I), text
        assert self.probe.user("ann")


class Installed:
    """A server that runs already."""

    def __init__(self, port, certificate):
        self.port, self.certificate = int(port), certificate

    def path(self, _name):
        return self.certificate

    def stop(self):
        """It runs on."""


def main():
    pictures = os.path.abspath(sys.argv[1] if len(sys.argv) > 1 else os.path.join(RELAY, "out/pictures"))
    os.makedirs(pictures, exist_ok=True)
    missing = [tool for tool in ("mumble", "Xvfb", "pulseaudio", "pacat", "parec", "dbus-daemon", "dbus-send", "import", "xdotool",
                                 "xclip") if not shutil.which(tool)]
    if missing:
        print("FAILED  missing:", *missing)
        return 1
    children = Children()
    with tempfile.TemporaryDirectory() as folder:
        at = Installed(*sys.argv[2:]) if sys.argv[2:] else Installation(os.path.join(folder, "server")).set_password().start()
        try:
            sound = Sound(folder, children)
            ann, bob = (StockClient(name, at, folder, sound, children) for name in TONES)
            talk = Conversation(at, sound, ann, bob, pictures)
            status = run_checks([talk.they_connect, talk.they_hear_each_other_for_a_minute, talk.they_change_channels,
                                 talk.one_mutes, talk.one_is_denied_by_the_permission, talk.one_is_kicked,
                                 talk.nobody_was_disconnected_otherwise])
        finally:
            children.end()
            at.stop()
    print(f"pictures: {pictures}")
    return status


if __name__ == "__main__":
    sys.exit(main())

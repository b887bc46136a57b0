#!/usr/bin/env python3
"""Tests of the Debian package, on machines that have nothing else (machine.py): it is installed, used by two stock
clients, upgraded and removed by the commands of relay/QUICKSTART.md and no others. MURMUR is the program in it, proved
or not. Prints a line a test; the status is 1 where one failed. It must be started by root."""
import hashlib
import os
import re
import shutil
import signal
import subprocess
import sys
import tempfile
import time
from pathlib import Path

from machine import FOLDER, Machine
from trial import PASSWORD, PROGRAM, RELAY, WHY, free_port, run_checks, wait

TOP = os.path.dirname(RELAY)
MAKE_DEB = os.path.join(TOP, "package/make-deb")
PACKAGE = FOLDER + "/murmur.deb"
SETTINGS = "/etc/murmur/"
# How long a service may take to be as it is to be, in seconds: the machine may do much else.
PATIENCE = 180
# What a removal leaves and an upgrade keeps.
KEPT = [SETTINGS + name for name in ("murmur.json", "server.pem", "kept-out", "relay.cfg")]
# Haproxy's own configuration, which is not murmur's.
HAPROXY = "/etc/haproxy/haproxy.cfg"
OTHERS = b"""# a web site that was here before
global
    user haproxy
defaults
    timeout connect 1s
    timeout client 1s
    timeout server 1s
frontend web
    bind 127.0.0.1:8080
"""


def commands(heading):
    """The commands of the blocks below a heading of QUICKSTART, one a line."""
    with open(os.path.join(RELAY, "QUICKSTART.md")) as page:
        part = re.search(rf"^## {re.escape(heading)}\n(.*?)(?=^## |\Z)", page.read(), re.M | re.S).group(1)
    blocks = re.findall(r"^```sh\n(.*?)^```$", part, re.M | re.S)
    return [line for block in blocks for line in block.splitlines() if not line.startswith("#")]


def make_package(folder, version, relay=None):
    """A package of the program under test; with `relay`, its relay.cfg is as that function makes it."""
    subprocess.run([MAKE_DEB, "--for-tests", version, PROGRAM, WHY], cwd=folder, check=True, stdout=subprocess.DEVNULL)
    if relay:
        with tempfile.TemporaryDirectory() as room:
            subprocess.run(["dpkg-deb", "-R", "murmur.deb", f"{room}/it"], cwd=folder, check=True)
            with open(f"{room}/it/etc/murmur/relay.cfg", "r+b") as file:
                text = relay(file.read())
                file.seek(0)
                file.write(text)
                file.truncate()
            subprocess.run(["dpkg-deb", "--root-owner-group", "-b", f"{room}/it", "murmur.deb"], cwd=folder, check=True,
                           stdout=subprocess.DEVNULL)
    with open(os.path.join(folder, "murmur.deb"), "rb") as file:
        return file.read()


def follow(machine, heading):
    """Gives the commands below a heading to a machine; where one asks for a password, it is typed twice. What they
    print. Each must succeed, but one that shows how the services are."""
    said = ""
    for line in commands(heading):
        if not line.startswith("package/"):
            typed = f"{PASSWORD}\n{PASSWORD}\n" if line.startswith("murmur-password") else ""
            said += machine.run(line, typed, check=" status " not in line)
    return said


def let_unproved_serve(machine):
    """A program without proofs is refused by the unit: here it is let in, after that was seen."""
    if b"murmur-unproved" not in machine.read("/usr/bin/murmur"):
        return "the program has no mark of one that is unproved"
    wait(lambda: "status=1" in machine.run("systemctl status murmur --no-pager", check=False), PATIENCE)
    assert "refused: a service takes a program that is proved" in machine.run("journalctl -u murmur --no-pager")
    machine.put("/etc/systemd/system/murmur.service.d/unproved.conf", b"[Service]\nEnvironment=MURMUR_UNPROVED=\n")
    machine.run("systemctl daemon-reload && systemctl reset-failed murmur && systemctl restart murmur")
    return "NOT PROVED: the unit refused the program, and was then changed to let it in"


def active(machine, *units):
    return [unit for unit in units if machine.run(f"systemctl is-active {unit}", check=False).strip() == "active"]


def holder(machine):
    """The program that has the port."""
    found = re.search(r'users:\(\("([^"]+)"', machine.run("ss -Hltnp 'sport = :64738'"))
    return found and found.group(1)


def kept(machine):
    return {name: machine.read(name) for name in (*KEPT, HAPROXY)}


def make_deb_refuses_what_the_gate_has_not_passed():
    with tempfile.TemporaryDirectory() as folder:
        for name in ("package", "relay", "docs", "cases", "examples"):
            os.symlink(os.path.join(TOP, name), os.path.join(folder, name))
        os.remove(os.path.join(folder, "package"))
        shutil.copytree(os.path.join(TOP, "package"), os.path.join(folder, "package"))
        for name in ("README.md", "SECURITY.md", "VERSION"):
            shutil.copy(os.path.join(TOP, name), folder)
        subprocess.run(["git", "init", "-q", folder], check=True)
        author = ["-c", "user.name=test", "-c", "user.email=test@localhost"]
        subprocess.run(["git", *author, "commit", "-q", "--allow-empty", "-m", "test"], cwd=folder, check=True)
        program, why, record = (os.path.join(folder, name) for name in
                                ("crates/murmur/out/murmur", "crates/murmur_why/out/murmur_why", ".ci/out/gate"))

        def answer(content=b"a program", **change):
            contents = {program: content, why: b"another program"}
            for file in (*contents, record):
                os.makedirs(os.path.dirname(file), exist_ok=True)
            for file, its in contents.items():
                Path(file).write_bytes(its)
                os.chmod(file, 0o755)
            digest, why_digest = (hashlib.sha256(its).hexdigest() for its in contents.values())
            lines = {"commit": "commit 0123456789abcdef", "kit": "kit of the test", "program": f"program {digest}",
                     "why": f"murmur-why {why_digest}", "end": "7 passed, 0 failed", **change}
            with open(record, "w") as file:
                file.write("".join(line + "\n" for line in lines.values()))
            return made()

        def made():
            done = subprocess.run(["package/make-deb"], cwd=folder, capture_output=True, text=True)
            return done.stderr if done.returncode else "made"

        assert answer() == "made"
        subprocess.run(["dpkg-deb", "-x", "murmur.deb", "installed"], cwd=folder, check=True)
        proved = Path(folder, "installed/usr/share/doc/murmur/proved.txt").read_text()
        assert "kit of the test" in proved and "7 passed, 0 failed" in proved, proved
        assert "the gate failed" in answer(end="6 passed, 1 failed")
        assert "the gate failed" in answer(end="0 passed, 0 failed")
        assert "no commit has" in answer(commit="commit 0123456789abcdef-dirty")
        assert "is not the program of that gate" in answer(program=f"program {'0' * 64}")
        assert "murmur_why is not the program of that gate" in answer(why=f"murmur-why {'0' * 64}")
        assert "is unproved" in answer(b"a program with the mark murmur-unproved in it")
        os.remove(record)
        os.remove(program)
        os.symlink("/bin/true", program)
        assert "the gate has not passed" in made()


def try_refuses_an_unproved_program_by_its_name():
    with tempfile.TemporaryDirectory() as folder:
        program = os.path.join(folder, "murmur-unproved")
        shutil.copy("/bin/true", program)
        done = subprocess.run([os.path.join(RELAY, "try"), os.path.join(folder, "try")], capture_output=True, text=True,
                              env={**os.environ, "MURMUR": program}, timeout=60)
        assert done.returncode == 1 and "is not proved" in done.stderr, done
        assert not os.path.exists(os.path.join(folder, "try"))


def try_says_what_is_missing_before_it_builds():
    with tempfile.TemporaryDirectory() as folder:
        os.mkdir(os.path.join(folder, "relay"))
        shutil.copy(os.path.join(RELAY, "try"), os.path.join(folder, "relay"))
        tools = os.path.join(folder, "tools")
        os.mkdir(tools)
        for tool in ("bash", "dirname", "find"):
            os.symlink(shutil.which(tool), os.path.join(tools, tool))
        with open(os.path.join(tools, "rt"), "w") as rt:
            rt.write("#!/bin/sh\necho it builds\n")
        os.chmod(os.path.join(tools, "rt"), 0o755)
        hide = 'mount --bind "$0" /usr/sbin && PATH=$0 exec bash "$1" $2'
        words = ["unshare", "-m", "sh", "-c", hide, tools, f"{folder}/relay/try"]
        for option in ("--unproved", "-p 1"):
            done = subprocess.run([*words, option], capture_output=True, text=True, timeout=60,
                                  env={k: v for k, v in os.environ.items() if k != "MURMUR"})
            assert done.returncode == 1 and "apt-get install" in done.stderr, done
            assert "builds" not in done.stdout + done.stderr, done


def try_builds_what_is_not_there_or_older_than_a_source():
    with tempfile.TemporaryDirectory() as folder:
        shutil.copytree(RELAY, f"{folder}/relay", ignore=shutil.ignore_patterns("out", "tests"))
        for below in ("crates/murmur/src", "unproved", "tools"):
            os.makedirs(f"{folder}/{below}")
        source = f"{folder}/crates/murmur/src/main.rt"
        for file in (source, f"{folder}/crates/murmur/stdin"):
            with open(file, "w") as empty:
                empty.write("")
        # both builders say so, and copy the program
        for builder, program in (("tools/rt", "crates/murmur/out/murmur"),
                                 ("unproved/build", "unproved/out/murmur-unproved")):
            with open(f"{folder}/{builder}", "w") as script:
                script.write(f"#!/bin/sh\necho {builder} builds >&2\n"
                             f"install -D {PROGRAM} {folder}/{program} && touch {folder}/{program}\n")
            os.chmod(f"{folder}/{builder}", 0o755)
        environment = {k: v for k, v in os.environ.items() if k != "MURMUR"}
        environment["PATH"] = f"{folder}/tools:{environment['PATH']}"

        def said(*option):
            printed = Path(folder, "log")
            with printed.open("w") as log:
                trial = subprocess.Popen([f"{folder}/relay/try", *option, "-p", str(free_port())], env=environment,
                                         stdin=subprocess.DEVNULL, stdout=log, stderr=log)
            wait(lambda: "Force TCP mode" in printed.read_text() or trial.poll() is not None, 60)
            trial.terminate()
            trial.wait(20)
            return printed.read_text()

        for option, builder in (([], "tools/rt builds"), (["--unproved"], "unproved/build builds")):
            assert builder in said(*option)
            again = said(*option)
            assert "builds" not in again.replace("proves and builds", "") and "murmur runs behind haproxy" in again, again
            assert ("It is NOT PROVED" in again) == bool(option), again
            time.sleep(1.1)
            os.utime(source)
            assert builder in said(*option)


class Fresh:
    """The life of an installation on one machine."""

    def __init__(self, machine, folder):
        self.machine, self.folder = machine, folder
        self.certificate = os.path.join(folder, "cert.pem")

    def it_is_installed(self):
        self.machine.put(PACKAGE, make_package(self.folder, "0.1.0"))
        began = time.monotonic()
        said = follow(self.machine, "Install")
        took = time.monotonic() - began
        assert "in use" not in said, said
        about = let_unproved_serve(self.machine)
        units = ["murmur", "murmur-relay"]
        wait(lambda: active(self.machine, *units) == units and holder(self.machine) == "haproxy", PATIENCE)
        assert active(self.machine, "murmur-restart.timer"), "no restart at night"
        return f"{took:.0f} s; {about}"

    def what_was_there_of_haproxy_stays(self):
        assert active(self.machine, "haproxy") == ["haproxy"]
        assert not self.machine.run("dpkg --verify haproxy"), "haproxy's own files were changed"
        self.machine.put(HAPROXY, OTHERS)
        self.machine.run("systemctl restart haproxy")

    def the_checks_are_commands(self):
        assert "accepted" in self.machine.run("murmur-check-configuration /etc/murmur/murmur.json")
        assert "the root" in self.machine.run("murmur-who-may /etc/murmur/murmur.json")
        self.machine.run(f"MURMUR_PASSWORD='{PASSWORD}' murmur-save localhost:64738 /etc/murmur/murmur.json > new.json")
        assert "Nobody may do anything else." in self.machine.run("murmur-who-may /etc/murmur/murmur.json new.json")
        said = self.machine.run("murmur-who-may /etc/murmur/murmur.json may guests Enter Staff")
        assert said == "no: guests may not Enter in 5 Staff\n", said
        assert '"channels"' in self.machine.run("murmur-who-may --json /etc/murmur/murmur.json")
        self.machine.put(f"{FOLDER}/wrong.json", b'{"welcom": "hi"}')
        said = self.machine.run("murmur-check-configuration wrong.json", check=False)
        assert 'did you mean "welcome"? (62)' in said, said
        journal = "/usr/share/doc/murmur/examples/two-users.journal"
        assert "legal" in self.machine.run(f"murmur-audit {journal}")
        assert "legal" in self.machine.run(f"murmur-redact {journal} > redacted && murmur-audit redacted")
        assert "<svg" in self.machine.run("murmur-picture /usr/share/doc/murmur/examples/three-talk")
        assert "1 ann is the speaker" in self.machine.run(f"murmur-why who 1 0 < {journal}")
        assert "OK" in self.machine.run("sha256sum -c /usr/share/doc/murmur/sha256")
        assert "relay.cfg" in self.machine.run("zcat /usr/share/man/man1/murmur.1.gz")
        assert "murmur" in self.machine.run("bash -c 'source /usr/share/bash-completion/completions/murmur && complete -p murmur'")

    def what_its_pages_name_is_there(self):
        for page in ("relay/QUICKSTART.md", "docs/ADMINISTRATION.md", "SECURITY.md"):
            at = Path(self.machine.root + "/usr/share/doc/murmur", page)
            named = re.findall(r"\]\(([^)#]+)", at.read_text())
            # figures are for the repository alone
            missing = [name for name in named if not name.endswith("bench/README.md") and not (at.parent / name).exists()]
            assert named and not missing, (page, missing)

    def its_memory_with_nobody_there(self):
        said = self.machine.run("grep VmRSS /proc/$(systemctl show -P MainPID murmur)/status")
        resident = int(said.split()[1]) * 1024 // 1_000_000
        assert resident < 400, said
        return f"{resident} MB resident"

    def two_stock_clients_talk(self):
        with open(self.certificate, "w") as file:
            file.write(self.machine.run("openssl x509 -in /etc/murmur/server.pem"))
        words = [*self.machine.within("-n"), sys.executable, os.path.join(RELAY, "tests/stock_client_test.py"),
                 os.path.join(RELAY, "out/pictures-of-the-package"), "64738", self.certificate]
        done = subprocess.run(words, capture_output=True, text=True, timeout=1200)
        assert done.returncode == 0, done.stdout + done.stderr
        return "; ".join(re.findall(r"^ok +(.*)", done.stdout, re.M))

    def settle_in(self):
        """Changes what an administrator changes; the files as they are then."""
        self.machine.run("sed -i 's/Welcome\\./Welcome to us./' /etc/murmur/murmur.json")
        self.machine.run("sed -i 's/gt 30/gt 35/' /etc/murmur/relay.cfg && echo 192.0.2.7 >> /etc/murmur/kept-out")
        self.machine.run("systemctl restart murmur && systemctl reload murmur-relay")
        return kept(self.machine)

    def it_serves(self):
        units = ["murmur", "murmur-relay", "haproxy"]
        wait(lambda: active(self.machine, *units) == units and holder(self.machine) == "haproxy", PATIENCE)
        said = self.machine.run("journalctl -u murmur --no-pager")
        # an unproved program failed each time that the unit refused it, and no other
        assert said.count("Failed with result") == said.count("refused: a service takes a program"), said

    def the_same_again_changes_nothing(self):
        before = self.settle_in()
        follow(self.machine, "Upgrade")
        self.machine.run("dpkg -i murmur.deb")
        assert kept(self.machine) == before, "a second run has changed a file"
        self.it_serves()

    def an_upgrade_changes_nothing(self):
        before = kept(self.machine)
        started = self.machine.run("systemctl show -P MainPID murmur")
        self.machine.put(PACKAGE, make_package(self.folder, "0.2.0"))
        follow(self.machine, "Upgrade")
        assert "0.2.0" in self.machine.run("dpkg-query -W murmur")
        assert kept(self.machine) == before, "an upgrade has changed a file"
        self.it_serves()
        assert self.machine.run("systemctl show -P MainPID murmur") != started, "the old program still runs"
        totals = re.findall(r"served connections .*", self.machine.run("journalctl -u murmur --no-pager"))
        assert totals or b"MURMUR_STOP" not in self.machine.read("/usr/bin/murmur"), "the old program left no totals"
        return totals[-1] if totals else "a program without a stop in good order"

    def where_both_have_changed_the_relay_dpkg_asks(self):
        before = kept(self.machine)
        self.machine.put(PACKAGE, make_package(self.folder, "0.3.0", lambda text: text + b"# new\n"))
        said = "".join(self.machine.run(line, "\n") for line in commands("Upgrade"))
        assert "relay.cfg" in said and "N or O" in said, said
        assert kept(self.machine) == before, "an upgrade has changed a file"
        self.it_serves()
        # a file that nobody has changed is replaced
        self.machine.run("cp /etc/murmur/relay.cfg.dpkg-dist /etc/murmur/relay.cfg")
        self.machine.put(PACKAGE, make_package(self.folder, "0.4.0", lambda text: text + b"# newer\n"))
        follow(self.machine, "Upgrade")
        assert self.machine.read(SETTINGS + "relay.cfg").endswith(b"# newer\n")
        self.it_serves()

    def what_was_disabled_stays_so_over_an_upgrade(self):
        self.machine.run("systemctl disable --now murmur-relay")
        self.machine.put(PACKAGE, make_package(self.folder, "0.5.0"))
        follow(self.machine, "Upgrade")
        assert holder(self.machine) is None and active(self.machine, "murmur-relay") == []
        self.machine.run("systemctl enable --now murmur-relay")
        self.it_serves()

    def it_is_removed(self):
        before = kept(self.machine)
        for line in commands("Remove"):
            self.machine.run(line)
            assert holder(self.machine) is None
            assert active(self.machine, "murmur", "murmur-relay", "haproxy") == ["haproxy"]
            units = self.machine.run("systemctl list-unit-files 'murmur*' --no-pager", check=False)
            assert not re.search(r"murmur\S*\s+(enabled|loaded)", units), units
            if "remove" in line:
                assert kept(self.machine) == before, "a removal has changed a file"
        assert not os.path.exists(self.machine.root + SETTINGS) and self.machine.read(HAPROXY) == before[HAPROXY]
        found = self.machine.run("find / -xdev -name '*murmur*'").split()
        left = [path for path in found if not path.startswith(("/proc/", "/sys/", "/srv/", "/var/log/"))
                and "murmur.service.d" not in path]
        assert not left, left

    def checks(self):
        return [self.it_is_installed, self.what_was_there_of_haproxy_stays, self.the_checks_are_commands,
                self.what_its_pages_name_is_there, self.its_memory_with_nobody_there, self.two_stock_clients_talk,
                self.the_same_again_changes_nothing, self.an_upgrade_changes_nothing,
                self.where_both_have_changed_the_relay_dpkg_asks, self.what_was_disabled_stays_so_over_an_upgrade,
                self.it_is_removed]


class AfterMumbleServer:
    """A machine on which Debian's mumble-server runs."""

    def __init__(self, machine, folder):
        self.machine, self.folder = machine, folder

    def the_port_in_use_is_said_in_plain_words(self):
        self.machine.run("apt-get install -y mumble-server iproute2")
        wait(lambda: holder(self.machine) == "murmurd", PATIENCE)
        self.machine.put(PACKAGE, make_package(self.folder, "0.1.0"))
        said = follow(self.machine, "Install")
        sentence = re.search(r"murmur: TCP port 64738 is in use by murmurd, process \d+, of the service mumble-server\.",
                             said)
        assert sentence and "systemctl stop mumble-server" in said, said
        let_unproved_serve(self.machine)
        # the other server stays where it is, at the next boot too
        assert holder(self.machine) == "murmurd"
        assert self.machine.run("systemctl is-enabled murmur-relay", check=False).strip() == "disabled"
        self.machine.run("systemctl start murmur-relay", check=False)
        assert sentence.group().split(", process")[0] in self.machine.run("journalctl -u murmur-relay --no-pager")
        return sentence.group()

    def murmur_takes_its_place(self):
        follow(self.machine, "From mumble-server")
        wait(lambda: holder(self.machine) == "haproxy", PATIENCE)
        assert active(self.machine, "murmur", "murmur-relay") == ["murmur", "murmur-relay"]
        assert active(self.machine, "mumble-server") == []
        assert self.machine.run("systemctl is-enabled murmur-relay").strip() == "enabled"
        assert "disabled" in self.machine.run("systemctl is-enabled mumble-server", check=False)

    def checks(self):
        return [self.the_port_in_use_is_said_in_plain_words, self.murmur_takes_its_place]


class AfterACopy:
    """A machine on which the files of the repository were installed one by one, as earlier versions were."""

    def __init__(self, machine, folder):
        self.machine, self.folder = machine, folder

    def copy(self, source, path, mode=0o644):
        with open(os.path.join(RELAY, source), "rb") as file:
            content = file.read()
        if mode == 0o644:
            # where files were then
            for new, old in ((b"/usr/share/murmur/", b"/etc/haproxy/murmur/"), (b"murmur-relay", b"haproxy"),
                             (b"/etc/murmur/server.pem", b"/etc/haproxy/murmur/server.pem"),
                             (b"/etc/murmur/kept-out", b"/etc/haproxy/murmur/kept-out"),
                             (b"/usr/bin/murmur", b"/usr/local/bin/murmur"),
                             (b"/usr/sbin/murmur", b"/usr/local/sbin/murmur")):
                content = content.replace(new, old)
        self.machine.put(path, content, mode)

    def what_was_copied_gives_way_to_the_package(self):
        self.machine.run("apt-get install -y haproxy openssl && cp -p /etc/haproxy/haproxy.cfg /etc/haproxy/haproxy.cfg~")
        original = self.machine.read(HAPROXY)
        self.copy(PROGRAM, "/usr/local/bin/murmur", 0o755)
        for source, path in (("murmur.service", "/etc/systemd/system/murmur.service"), ("haproxy.cfg", HAPROXY),
                             ("kept-out", "/etc/haproxy/murmur/kept-out"),
                             ("murmur.1", "/usr/local/share/man/man1/murmur.1"),
                             ("completion.bash", "/usr/share/bash-completion/completions/murmur")):
            self.copy(source, path)
        self.copy("drain", "/usr/local/sbin/murmur-drain", 0o755)
        self.copy("password", "/usr/local/sbin/murmur-password", 0o755)
        self.copy("murmur.json", SETTINGS + "murmur.json", 0o600)
        for name in os.listdir(RELAY):
            if name.endswith((".lua", ".html")):
                self.copy(name, f"/etc/haproxy/murmur/{name}")
        self.machine.run("openssl req -x509 -newkey ec -pkeyopt ec_paramgen_curve:prime256v1 -nodes -subj /CN=old"
                         " -keyout /etc/haproxy/murmur/server.pem -out /etc/haproxy/murmur/server.pem")
        self.machine.run("sed -i s/Welcome/Hello/ /etc/murmur/murmur.json && systemctl daemon-reload")
        self.machine.run("systemctl restart haproxy && systemctl enable --now murmur")
        certificate = self.machine.read("/etc/haproxy/murmur/server.pem")
        document = self.machine.read(SETTINGS + "murmur.json")
        follow(self.machine, "From an installation that was copied by hand")
        self.machine.put(PACKAGE, make_package(self.folder, "0.1.0"))
        follow(self.machine, "Upgrade")
        let_unproved_serve(self.machine)
        units = ["murmur", "murmur-relay", "haproxy"]
        wait(lambda: holder(self.machine) == "haproxy" and active(self.machine, *units) == units, PATIENCE)
        assert self.machine.read(SETTINGS + "server.pem") == certificate and self.machine.read(HAPROXY) == original
        assert self.machine.read(SETTINGS + "murmur.json") == document
        assert "/usr/bin/murmur" in self.machine.run("systemctl cat murmur")

    def checks(self):
        return [self.what_was_copied_gives_way_to_the_package]


def main():
    # whoever ends it ends its machines too
    signal.signal(signal.SIGTERM, lambda *_: sys.exit(1))
    status = run_checks([make_deb_refuses_what_the_gate_has_not_passed, try_refuses_an_unproved_program_by_its_name,
                         try_says_what_is_missing_before_it_builds,
                         try_builds_what_is_not_there_or_older_than_a_source])
    for life in (Fresh, AfterMumbleServer, AfterACopy):
        with tempfile.TemporaryDirectory() as folder, Machine() as machine:
            status |= run_checks(life(machine, folder).checks())
    return status


if __name__ == "__main__":
    sys.exit(main())

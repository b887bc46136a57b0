#!/usr/bin/env python3
"""Tests of the files of relay/ that need no client: configurations, unit, man page, completion, passwords. MURMUR is
the program. Prints a line a test; the status is 1 where one failed."""
import hashlib
import json
import os
import pty
import re
import shutil
import stat
import subprocess
import sys
import tempfile

from trial import PROGRAM, RELAY, WHY, run_checks

PASSWORD = "long enough, with \"quotes\" and \\"


def path(name):
    return os.path.join(RELAY, name)


def text(name):
    with open(path(name)) as file:
        return file.read()


def run(*words, **more):
    return subprocess.run(words, text=True, capture_output=True, timeout=60, **more)


def passed(done):
    assert done.returncode == 0, done.stdout + done.stderr
    return done


def haproxy_takes_the_installed_configuration():
    with tempfile.TemporaryDirectory() as folder:
        passed(run("openssl", "req", "-x509", "-newkey", "ec", "-pkeyopt", "ec_paramgen_curve:prime256v1", "-nodes", "-subj",
                   "/CN=test", "-keyout", f"{folder}/server.pem", "-out", f"{folder}/server.pem"))
        for name in ("cryptsetup.lua", "login.lua", "view.lua", "view.html", "kept-out"):
            shutil.copy(path(name), folder)
        with open(f"{folder}/haproxy.cfg", "w") as configuration:
            configuration.write(text("haproxy.cfg").replace("/etc/murmur", folder).replace("/usr/share/murmur", folder))
        done = passed(run("haproxy", "-c", "-f", f"{folder}/haproxy.cfg", env={"PATH": "/usr/sbin:/usr/bin:/bin"}))
        assert "WARNING" not in done.stderr, done.stderr


def murmur_takes_the_configuration():
    recording = f"recording 1\nworkers 1\nconfig {text('murmur.json').encode().hex()}\nend\n"
    done = passed(run(PROGRAM, "replay", input=recording))
    assert done.stdout == "totals looks 0 copies 0 full 0 stale 0\n", done.stdout


def no_known_password_opens_anything():
    document = json.loads(text("murmur.json"))
    digests = [account["password_sha256"] for account in document["accounts"]]
    assert digests == ["0" * 64] and "server_password_sha256" not in document
    assert not re.search(r'"group": "[!~]*#', text("murmur.json")), "an access token that is known"


def the_unit_is_right_and_hardened():
    with tempfile.TemporaryDirectory() as folder:
        unit = text("murmur.service").replace("/usr/bin/murmur", "/bin/true")
        unit = unit.replace("/usr/sbin/murmur-drain", path("drain")).replace("man:murmur(1)", "man:systemd(1)")
        with open(f"{folder}/murmur.service", "w") as file:
            file.write(unit)
        done = passed(run("systemd-analyze", "verify", "--man=no", f"{folder}/murmur.service"))
        assert "murmur.service" not in done.stderr, done.stderr
        done = passed(run("systemd-analyze", "security", "--offline=true", "--no-pager", "--threshold=11",
                          f"{folder}/murmur.service"))
        return re.search(r"exposure level for \S+: (\S+ \w+)", done.stdout).group(1)


def the_unit_serves_as_many_connections_as_there_may_be():
    """The program takes the words of the unit, and no greater numbers."""
    unit = text("murmur.service").replace("\\\n", "")
    words = re.search(r"^ExecStart=\S+ (.*)$", unit, re.M).group(1).split()
    with tempfile.TemporaryDirectory() as folder:
        sockets = [word.replace("/var/lib/haproxy/murmur", folder) for word in words]
        with subprocess.Popen([PROGRAM, *sockets], stdin=subprocess.PIPE, stderr=subprocess.PIPE, text=True) as server:
            server.stdin.write("{}")
            server.stdin.close()
            line = server.stderr.readline()
            server.kill()
        assert line == f"murmur: listening on {sockets[1]}\n", line
        numbers = [place for place, word in enumerate(sockets) if word.isdigit()]
        for place in numbers:
            more = str(int(sockets[place]) + 1)
            done = run(PROGRAM, *sockets[:place], more, *sockets[place + 1:], input="{}")
            assert done.returncode == 1, done
        assert len(numbers) == 2, sockets


def the_timer_restarts_it_at_night():
    calendar = re.search(r"^OnCalendar=(.*)$", text("murmur-restart.timer"), re.M).group(1)
    times = passed(run("systemd-analyze", "calendar", "--iterations=3", calendar, env={**os.environ, "TZ": "UTC"})).stdout
    hours = re.findall(r"(?:Next elapse|Iter\. #\d+): \w+ \d+-\d+-(\d+) (\d\d):\d\d:\d\d", times)
    assert len({day for day, _ in hours}) == 3 and all(2 <= int(hour) < 6 for _, hour in hours), times
    with tempfile.TemporaryDirectory() as folder:
        for name in ("murmur-restart.service", "murmur-restart.timer"):
            shutil.copy(path(name), folder)
        done = passed(run("systemd-analyze", "verify", "--man=no", f"{folder}/murmur-restart.timer"))
        assert "murmur" not in done.stderr, done.stderr
    assert re.search(r"^ExecStart=/usr/bin/systemctl try-restart murmur\.service$", text("murmur-restart.service"), re.M)
    assert re.search(r"^ExecStop=\+\S*murmur-drain", text("murmur.service"), re.M), "no clean end"


def the_unit_knows_each_status_that_stays_so():
    """And no other: each is in the table of the documents as one of what `serve` is started with."""
    with open(path("../docs/FORMATS.md")) as formats:
        ends = re.search(r"^#+ How a run ends\n(.*?)(?=^#)", formats.read(), re.M | re.S).group(1)
    named = re.search(r"^RestartPreventExitStatus=(.*)$", text("murmur.service"), re.M).group(1).split()
    assert named and set(named) <= set(re.findall(r"^\| (\d+) \|", ends, re.M)), named


def the_man_pages_are_right():
    for page, program, commands in (("murmur.1", PROGRAM, ("replay", "audit", "exercise", "serve")),
                                    ("murmur-why.1", WHY, ("heard", "who", "may", "other"))):
        done = passed(run("man", "--warnings", "-l", path(page), env={**os.environ, "MANROFFSEQ": "", "LC_ALL": "C.UTF-8"}))
        assert not done.stderr and "SYNOPSIS" in done.stdout, done.stderr
        usage = run(program).stderr
        for command in commands:
            assert command in usage and f"{page.removesuffix('.1')} {command}" in done.stdout, command


def completion_knows_the_words():
    asked = {
        "murmur ": "replay audit exercise serve",
        "murmur re": "replay",
        "murmur serve ": "proxy: unix: 127.0.0.1:64738 [::1]:64738",
        "murmur serve proxy:u": "unix:",
        "murmur serve proxy:unix:/et": "/etc/",
        "murmur serve 127.0.0.1:64738 1": "1000 1000000",
        "murmur serve 127.0.0.1:64738 1 ": "journal keep view",
        "murmur serve 127.0.0.1:64738 1 journal ": "view",
        "murmur serve 127.0.0.1:64738 1 journal view unix:/et": "/etc/",
        "murmur serve 127.0.0.1:64738 1 view [::1]:5 1": "1000 1000000",
        "murmur serve 127.0.0.1:64738 1 view [::1]:5 1 ": "keep",
        "murmur serve 127.0.0.1:64738 1 keep /et": "/etc",
        "murmur serve 127.0.0.1:64738 1 view [::1]:5 1 keep /et": "/etc",
        "murmur replay ": "",
        "murmur-why ": "heard who may other",
        "murmur-why h": "heard",
        "murmur-why heard ": "-",
        "murmur-why other /et": "/etc",
        "murmur-why who ": "",
    }
    for line, wanted in asked.items():
        done = passed(run("bash", "-c", 'source "$1"; COMP_LINE=$2 COMP_POINT=${#2} COMP_WORDS=("${@:4}") COMP_CWORD=$(($# - 4))\n'
                          '"$3"; echo "${COMPREPLY[*]}"', "-", path("completion.bash"), line,
                          "_" + line.split(" ")[0].replace("-", "_"), *line.split(" ")))
        assert done.stdout.rstrip("\n") == wanted, (line, done.stdout)


def typed(words, lines):
    """Runs a command on a terminal at which these lines are typed once it has asked for each, and gives its status
    and what is to be seen there."""
    process, terminal = pty.fork()
    if process == 0:
        os.execv(words[0], words)
    seen = b""
    waiting = [line.encode() + b"\n" for line in lines]
    while True:
        try:
            seen += os.read(terminal, 4096)
        except OSError:
            break
        if waiting and seen.count(b": ") > len(lines) - len(waiting):
            os.write(terminal, waiting.pop(0))
    os.close(terminal)
    return os.waitstatus_to_exitcode(os.waitpid(process, 0)[1]), seen.decode()


def a_password_is_set_at_the_terminal_and_not_seen():
    digest = hashlib.sha256(PASSWORD.encode()).hexdigest()
    with tempfile.TemporaryDirectory() as folder:
        file = f"{folder}/murmur.json"
        document = {"welcome": '{ "name": "SuperUser", "password_sha256": "x" }', **json.loads(text("murmur.json"))}
        document["accounts"].append({"name": "Ann", "id": 1, "password_sha256": "0" * 64})
        with open(file, "w") as out:
            json.dump(document, out)
        os.chmod(file, 0o644)
        for words, change in ((["SuperUser"], ("accounts", 0)), (["Ann"], ("accounts", 1)), ([], ("accounts", 0))):
            document[change[0]][change[1]]["password_sha256"] = digest
            status, seen = typed([path("password"), file, *words], [PASSWORD, PASSWORD])
            assert status == 0 and digest in seen and PASSWORD not in seen, seen
            with open(file) as now:
                assert json.load(now) == document
            assert stat.S_IMODE(os.stat(file).st_mode) == 0o600
        for _ in range(2):
            document["server_password_sha256"] = digest
            assert typed([path("password"), "--server", file], [PASSWORD, PASSWORD])[0] == 0
            with open(file) as now:
                assert json.load(now) == document
        for words, lines in (([file, "Nobody"], [PASSWORD, PASSWORD]), ([file], [PASSWORD, PASSWORD + "!"]),
                             ([file], ["short", "short"]), ([file], ["", ""])):
            status, seen = typed([path("password"), *words], lines)
            assert status == 1 and "nothing was changed" in seen, seen
            with open(file) as now:
                assert json.load(now) == document
        assert sorted(os.listdir(folder)) == ["murmur.json"]


CHECKS = [haproxy_takes_the_installed_configuration, murmur_takes_the_configuration, no_known_password_opens_anything,
          the_unit_is_right_and_hardened, the_unit_serves_as_many_connections_as_there_may_be,
          the_timer_restarts_it_at_night, the_unit_knows_each_status_that_stays_so, the_man_pages_are_right,
          completion_knows_the_words,
          a_password_is_set_at_the_terminal_and_not_seen]

if __name__ == "__main__":
    sys.exit(run_checks(CHECKS))

"""A machine with Debian 12 and nothing of murmur, for the tests of the package: a root of Debian's packages whose
systemd runs in namespaces of its own (systemd-nspawn), with no network but its loopback. It must be started by root.

The root is made once (by debootstrap, into relay/out/debian-12) and never changed: each machine writes to memory.
What murmur's package depends on lies there as Debian's packages, not installed, since a machine has no network."""
import os
import shutil
import signal
import subprocess
import tempfile

from trial import RELAY, wait

ROOT = os.path.join(RELAY, "out/debian-12")
MIRROR = "http://deb.debian.org/debian"
# What is there from the start, and what can be installed.
INSTALLED = "systemd,systemd-sysv,dbus,ca-certificates"
TO_INSTALL = ["haproxy", "openssl", "python3", "iproute2", "mumble-server"]
# Where commands run, and where the package lies.
FOLDER = "/srv"
CLEAN = ["env", "-i", "PATH=/usr/sbin:/usr/bin:/sbin:/bin", "TERM=dumb", "LC_ALL=C.UTF-8", f"HOME={FOLDER}",
         "DEBIAN_FRONTEND=noninteractive"]


def make_root():
    """Debian's packages below ROOT, if they are not there yet. It takes some minutes."""
    if os.path.exists(ROOT):
        return
    part = ROOT + ".part"
    shutil.rmtree(part, ignore_errors=True)
    subprocess.run(["debootstrap", "--variant=minbase", f"--include={INSTALLED}", "bookworm", part, MIRROR], check=True,
                   stdout=subprocess.DEVNULL)
    shutil.copy("/etc/resolv.conf", os.path.join(part, "etc/resolv.conf"))
    for words in (["update", "-q"], ["install", "-q", "-y", "--download-only", *TO_INSTALL]):
        subprocess.run(["chroot", part, *CLEAN, "apt-get", *words], check=True, stdout=subprocess.DEVNULL)
    os.rename(part, ROOT)


class Machine:
    """One machine, while the block of `with` runs."""

    def __enter__(self):
        make_root()
        self.folder = tempfile.mkdtemp()
        self.root = os.path.join(self.folder, "root")
        subprocess.run(["mount", "-t", "tmpfs", "none", self.folder], check=True)
        for name in ("root", "upper", "work"):
            os.mkdir(os.path.join(self.folder, name))
        layers = f"lowerdir={ROOT},upperdir={self.folder}/upper,workdir={self.folder}/work"
        subprocess.run(["mount", "-t", "overlay", "overlay", "-o", layers, self.root], check=True)
        self.put("/etc/hosts", b"127.0.0.1 localhost server\n::1 localhost\n")
        self.log = open(os.path.join(self.folder, "log"), "wb")
        words = ["systemd-nspawn", "--quiet", "--register=no", "--keep-unit", "--private-network", "--hostname=server",
                 "--resolv-conf=off", "--console=pipe", "-D", self.root, "-b"]
        self.nspawn = subprocess.Popen(words, stdin=subprocess.DEVNULL, stdout=self.log, stderr=self.log)
        self.leader = None
        try:
            wait(self.is_up, 300)
        except TimeoutError as error:
            with open(os.path.join(self.folder, "log")) as log:
                said = log.read()
            if self.leader:
                said += self.run("systemctl is-system-running; systemctl list-jobs; systemctl --failed", check=False)
            self.__exit__()
            raise TimeoutError(f"the machine does not start: {said}") from error
        return self

    def is_up(self):
        """Whether its first process is there and has started the services."""
        assert self.nspawn.poll() is None, "systemd-nspawn has ended"
        # its first child is another one for a moment
        with open(f"/proc/{self.nspawn.pid}/task/{self.nspawn.pid}/children") as children:
            self.leader = next(iter(children.read().split()), None)
        return self.leader and self.run("systemctl is-system-running", check=False).strip() in ("running", "degraded")

    def __exit__(self, *_):
        self.nspawn.send_signal(signal.SIGTERM)
        try:
            self.nspawn.wait(120)
        except subprocess.TimeoutExpired:
            self.nspawn.kill()
            self.nspawn.wait()
        self.log.close()
        subprocess.run(["umount", "-R", self.root])
        subprocess.run(["umount", self.folder])
        os.rmdir(self.folder)

    def within(self, *namespaces):
        """The words in front of a command that runs in namespaces of the machine."""
        return ["nsenter", "-t", self.leader, *namespaces, "--"]

    def run(self, command, typed="", check=True, seconds=1200):
        """What a command prints that root gives to a shell there, in FOLDER."""
        words = [*self.within("-m", "-u", "-i", "-n", "-p"), *CLEAN, "bash", "-c", "cd && " + command]
        done = subprocess.run(words, input=typed, text=True, stdout=subprocess.PIPE, stderr=subprocess.STDOUT,
                              timeout=seconds)
        assert not check or done.returncode == 0, f"{command}: status {done.returncode}\n{done.stdout}"
        return done.stdout

    def read(self, path):
        """The bytes of one of its files."""
        with open(self.root + path, "rb") as file:
            return file.read()

    def put(self, path, content, mode=0o644):
        """Writes one of its files."""
        os.makedirs(os.path.dirname(self.root + path), exist_ok=True)
        with open(self.root + path, "wb") as file:
            file.write(content)
        os.chmod(self.root + path, mode)

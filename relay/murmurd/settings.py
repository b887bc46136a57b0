"""The settings of a mumble-server: those that have a place in a configuration, and why the others have none."""
import hashlib
import re

from .report import shown

TEXT_LIMIT = 20_000
GREATEST = (1 << 32) - 1

RELAY = "it is the relay's, in relay.cfg"
CERTIFICATE = "certificates are the relay's, in /etc/murmur/server.pem"
NO_DATABASE = "there is no database"
NO_CODE = "no other program administers murmur"
NO_PUBLIC_LIST = "murmur is in no public list, and its root is named Root"
NO_SUGGESTIONS = "clients are suggested nothing"
NO_LOG = "murmur writes to the journal of systemd"
PASSWORDS = "passwords are kept as SHA-256 without salt"
ROOT_FIRST = "everybody arrives in the root"
FIXED_COUNTS = "these limits are fixed: 32 levels below the root, 2,048 channels"
FIXED_TEXTS = f"this limit is fixed: {TEXT_LIMIT:,} bytes, pictures included"
FIXED_NAMES = "names have 1 to 128 bytes, no control characters and no space at either end"
NO_BANS = "the server bans nobody by itself; the relay keeps an address out for a time after wrong passwords"
PACE = "MURMUR_PACE in the environment of the server says how much a client may send"
SYSTEMD = "its unit of systemd says when it runs, and as whom"

# By the names of the settings in small letters, as the database has them.
REASONS = {
    "users": "512 users may be connected",
    "defaultchannel": ROOT_FIRST, "rememberchannel": ROOT_FIRST,
    "channelnestinglimit": FIXED_COUNTS, "channelcountlimit": FIXED_COUNTS,
    "textmessagelength": FIXED_TEXTS, "imagemessagelength": FIXED_TEXTS,
    "allowhtml": "texts are passed on unchanged",
    "channelname": FIXED_NAMES, "username": FIXED_NAMES,
    "certrequired": "certificates are not read",
    "opusthreshold": "all speak Opus",
    "sendversion": "the version is sent, and no operating system",
    "suggestversion": NO_SUGGESTIONS, "suggestpositional": NO_SUGGESTIONS, "suggestpushtotalk": NO_SUGGESTIONS,
    "messageburst": PACE, "messagelimit": PACE,
    "autobanattempts": NO_BANS, "autobantimeframe": NO_BANS, "autobantime": NO_BANS,
    "registername": NO_PUBLIC_LIST, "registerpassword": NO_PUBLIC_LIST, "registerurl": NO_PUBLIC_LIST,
    "registerhostname": NO_PUBLIC_LIST, "registerlocation": NO_PUBLIC_LIST,
    "legacypasswordhash": PASSWORDS, "kdfiterations": PASSWORDS,
    "port": RELAY, "host": RELAY, "timeout": RELAY,
    "certificate": CERTIFICATE, "key": CERTIFICATE, "passphrase": CERTIFICATE,
    "sslcert": CERTIFICATE, "sslkey": CERTIFICATE, "sslpassphrase": CERTIFICATE, "sslca": CERTIFICATE,
    "ssldhparams": CERTIFICATE, "sslciphers": CERTIFICATE,
    "allowping": "UDP is not used", "bonjour": "UDP is not used",
    "database": NO_DATABASE, "sqlite_wal": NO_DATABASE, "dbdriver": NO_DATABASE, "dbusername": NO_DATABASE,
    "dbpassword": NO_DATABASE, "dbhost": NO_DATABASE, "dbport": NO_DATABASE, "dbprefix": NO_DATABASE,
    "dbopts": NO_DATABASE,
    "logfile": NO_LOG, "logdays": NO_LOG,
    "obfuscate": "MURMUR_LOG=none leaves addresses out of the log",
    "uname": SYSTEMD, "pidfile": SYSTEMD,
    "boot": SYSTEMD,
    "ice": NO_CODE, "icesecretread": NO_CODE, "icesecretwrite": NO_CODE, "dbus": NO_CODE, "dbusservice": NO_CODE,
    "grpc": NO_CODE, "grpccert": NO_CODE, "grpckey": NO_CODE,
    "ice/ice.warn.unknownproperties": NO_CODE, "ice/ice.messagesizemax": NO_CODE,
}
# What the database calls what the file calls otherwise.
SAME = {"password": "serverpassword"}


class Settings:
    """All that is set: of a virtual server in the database, and of all in a file, behind that."""

    def __init__(self, of_server, of_file, report):
        self.values, self.taken, self.report = {}, set(), report
        for key, values in of_file.items():
            if len(values) > 1:
                report.left_out(f"the setting {key} of the file",
                                "mumble-server ignores it too, for a comma outside quotation marks")
            else:
                self.values[key] = (values[0], "the file")
        for key, value in of_server.items():
            name = SAME.get(key, key)
            if name in self.values:
                report.left_out(f"the setting {name} of the file",
                                "the database has one of this server, which counts")
            self.values[name] = (value, "the database")

    def text(self, name):
        """The text of a setting; the empty one where it is not set."""
        self.taken.add(name)
        return self.values.get(name, ("", ""))[0]

    def number(self, name, least):
        """The number of a setting, or None where it is not set; what is no number that it may have is reported."""
        value, source = self.values.get(name, ("", ""))
        self.taken.add(name)
        if re.fullmatch(r"\s*[0-9]{1,10}\s*", value, re.ASCII) and least <= int(value) <= GREATEST:
            return int(value)
        if value:
            self.report.left_out(f"the setting {name} of {source}", f"{shown(value)!r} is no number that it may have")
        return None

    def report_others(self):
        """Says of each other one why it has no place."""
        for name, (_, source) in sorted(self.values.items()):
            if name not in self.taken:
                self.report.left_out(f"the setting {name} of {source}", REASONS.get(name.lower(), "it is not known"))


def server_of(settings, report):
    """The keys of a configuration that are the server's."""
    document = {}
    welcome, password = settings.text("welcometext"), settings.text("serverpassword")
    if len(welcome.encode()) > TEXT_LIMIT:
        report.left_out("the welcome", f"it has {len(welcome.encode()):,} bytes, and may have {TEXT_LIMIT:,}")
    elif welcome:
        document["welcome"] = welcome
    if bandwidth := settings.number("bandwidth", 1):
        document["bandwidth"] = bandwidth
    if password:
        document["server_password_sha256"] = hashlib.sha256(password.encode()).hexdigest()
    return document

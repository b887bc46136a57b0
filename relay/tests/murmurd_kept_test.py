#!/usr/bin/env python3
"""Tests of relay/from-murmurd --kept on databases of Debian's mumble-server 1.3, and of docs/kept, which prints what
was kept as a configuration. MURMUR is the program that accepts the configurations; it serves nothing. Prints a line a
test; the status is 1 where one failed. Words are the names of tests to run."""
import json
import os
import sqlite3
import subprocess
import sys
import tempfile

from keeping import holding
from migration import TOP, bytes_of, filled, migrated, run, taken
from murmurd_firm import firm, wrong_answers
from murmurd_test import EVERYTHING, many
from reader import kept
from reader.rights import read_document
from server import Tests

test = Tests()


def kept_of(folder, *words):
    """What --kept writes for these words, the path of a database first: the configuration, the kept file's path, and
    the lines that are said."""
    path = os.path.join(tempfile.mkdtemp(dir=os.path.dirname(folder)), "kept.db")
    done = migrated(*words, "--kept", path)
    assert done.returncode == 0, done.stderr
    assert os.stat(path).st_mode & 0o777 == 0o600 and os.listdir(os.path.dirname(path)) == ["kept.db"], path
    lines = [line.removeprefix("relay/from-murmurd: ") for line in done.stderr.splitlines()]
    return json.loads(done.stdout), path, lines


def printed(path, document):
    """What docs/kept prints of a kept file and a configuration, accepted by the program."""
    with tempfile.NamedTemporaryFile("w", suffix=".json") as settings, \
            tempfile.NamedTemporaryFile("w", suffix=".json") as file:
        json.dump(document, settings)
        settings.flush()
        done = subprocess.run([os.path.join(TOP, "docs/kept"), path, settings.name], capture_output=True, text=True,
                              timeout=300, check=False)
        assert done.returncode == 0, done.stderr
        file.write(done.stdout)
        file.flush()
        checked = subprocess.run([os.path.join(TOP, "docs/check-configuration"), file.name], capture_output=True,
                                 text=True, timeout=300, check=False)
    assert checked.returncode == 0 and ": accepted" in checked.stdout, checked.stdout + checked.stderr
    return json.loads(done.stdout), done.stderr


def without_tree(document):
    """The settings and accounts of a configuration."""
    return {key: value for key, value in document.items() if key not in ("channels", "links")}


@test
def what_is_kept_is_what_the_configuration_would_have_had(folder):
    """Settings and accounts stay; channels, lists and links are in the file, and both together are the same again."""
    for place, script in enumerate((EVERYTHING, firm())):
        below = os.path.join(folder, str(place))
        os.mkdir(below)
        server = filled(below, script, "welcometext=hello", "usersperchannel=20")
        whole, lines = taken(server.database, server.ini)
        document, path, told = kept_of(folder, server.database, server.ini)
        assert document == without_tree(whole), document
        assert sorted(told) == sorted(line for line in lines if "the numbers of channels" not in line), (told, lines)
        again, said = printed(path, document)
        assert again == whole and not said, (again, said)


@test
def channels_keep_their_numbers(folder):
    """Also where one lies below another of a greater number; as a configuration they get others."""
    server = filled(folder, """
        INSERT INTO channels VALUES (1, 1, 5, 'Low', 1), (1, 5, 0, 'High', 0), (1, 2000000000, 0, 'Two', 1);
        UPDATE channels SET name = 'Ours' WHERE channel_id = 0;
        INSERT INTO channel_links VALUES (1, 1, 2000000000), (1, 5, 1), (1, 1, 5);
        INSERT INTO acl VALUES (1, 1, 1, NULL, 'all', 1, 1, 4, 8), (1, 1, 2, 0, '', 0, 1, 0, 1);""")
    document, path, lines = kept_of(folder, server.database)
    rows = kept.read(path)
    assert [(one.id, one.parent, one.name) for one in rows.channels.values()] == [
        (0, 0, "Root"), (1, 5, "Low"), (5, 0, "High"), (2_000_000_000, 0, "Two")], rows.channels
    assert rows.links == [(1, 5), (1, 2_000_000_000)], rows.links
    assert kept.rights_of(rows.channels[1].policy) == {"acls": [
        {"group": "all", "grant": 4 | 0x800, "deny": 8}, {"account": 0, "here": False, "deny": 1}]}, rows.channels[1]
    assert kept.rights_of(rows.channels[5].policy) == {"inherit_acls": False}, rows.channels[5]
    assert not any("the numbers of channels" in line for line in lines), lines
    whole, said = printed(path, document)
    assert "the numbers of channels" in said, said
    assert [one["name"] for one in whole["channels"][1:]] == ["High", "Low", "Two"], whole["channels"]


@test
def rights_of_what_is_kept_are_those_that_the_server_answers(folder):
    """A firm of 300 channels is kept; the server that it was taken from answers the questions as the table does, and so
    does docs/who-may of the configuration that is printed of the kept file."""
    server = filled(folder, firm())
    document, path, _ = kept_of(folder, server.database)
    rows = kept.read(path)
    assert "channels" not in document and (len(rows.channels), len(rows.links)) == (301, 100), rows
    whole, _ = printed(path, document)
    with server:
        wrong, count, _ = wrong_answers(server, read_document(json.dumps(whole)))
    assert not wrong, wrong
    return f"{count} questions"


@test
def more_channels_can_be_kept_than_a_configuration_has(folder):
    for count in (2047, 2048):
        below = os.path.join(folder, str(count))
        os.mkdir(below)
        server = filled(below, many(count, "1, i, 0, 'c' || i, 1", "channels"))
        if count == 2047:
            assert len(kept.read(kept_of(folder, server.database)[1]).channels) == 2048
        else:
            done = migrated(server.database, "--kept", os.path.join(folder, "kept.db"))
            assert done.returncode == 8 and "there are 2,049, and may be 2,048" in done.stderr, done
            assert not os.path.exists(os.path.join(folder, "kept.db"))


@test
def a_file_that_is_there_stays(folder):
    """Nothing is written then; nor is one left where the configuration could not be written."""
    server, path = filled(folder, EVERYTHING), os.path.join(tempfile.mkdtemp(dir=os.path.dirname(folder)), "kept.db")
    with open(path, "w") as file:
        file.write("mine")
    done = migrated(server.database, "--kept", path)
    assert (done.returncode, done.stdout, bytes_of(path)) == (9, "", b"mine"), done
    assert "is there already" in done.stderr, done
    os.remove(path)
    with open("/dev/full", "w") as full:
        done = run(server.database, "--kept", path, stdout=full)
    assert done.returncode == 9 and not os.listdir(os.path.dirname(path)), done
    done = migrated(server.database, "--kept", path + "/below/kept.db")
    assert done.returncode == 9 and not done.stdout, done


@test
def what_is_no_kept_file_is_not_printed(folder):
    """Another program's database, one that is cut, one that somebody writes, and rows that are no tree."""
    paths = {name: os.path.join(folder, name) for name in ("other", "cut", "busy", "loop", "text")}
    with open(paths["text"], "w") as file:
        file.write("no database\n" * 100)
    other = sqlite3.connect(paths["other"])
    other.execute("CREATE TABLE channels (id INTEGER)")
    other.close()
    root = kept.Channel(0, 0, "Root", policy=kept.policy_of(0, {}))
    for name in ("cut", "busy", "loop"):
        kept.write(paths[name], kept.Rows({0: root}))
    os.truncate(paths["cut"], 5000)
    database = sqlite3.connect(paths["loop"])
    database.execute("INSERT INTO channels VALUES (1, 2, 'a', '', 0, 0, x''), (2, 1, 'b', '', 0, 0, x'')")
    database.commit()
    database.close()
    reasons = {"other": "another program's", "cut": "damaged", "busy": "in use", "loop": "nothing leads",
               "text": "damaged"}
    with holding(paths["busy"], "BEGIN EXCLUSIVE"):
        for name, path in paths.items():
            before = bytes_of(path)
            done = subprocess.run([os.path.join(TOP, "docs/kept"), path], capture_output=True, text=True, check=False)
            assert (done.returncode, done.stdout) == (1, "") and reasons[name] in done.stderr, (name, done)
            assert bytes_of(path) == before and len(os.listdir(folder)) == len(paths), os.listdir(folder)


if __name__ == "__main__":
    sys.exit(test.run())

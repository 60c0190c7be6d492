#!/usr/bin/env python3
"""Fetches the property lists of other projects that tests/mistakes has, and compares each with the definition there.

    tests/fetch_lists.py FOLDER [KEYRING]

A title as `chrony 4.3 of bookworm: contrib/x/chronyd.plist` names a source package, its upstream version, a suite of Debian or Ubuntu that has it, and the
file in its upstream archive. `apt-get source` fetches the archive into FOLDER, with lists of its own; what lies in FOLDER is not fetched again. KEYRING
is the file of Ubuntu's keys, as the package ubuntu-keyring has it; without it Ubuntu's suites are left out. Python's plistlib reads a list, and no
reader of this project.

Before that its text begins at `<?xml`, has no document type (plistlib looks at none, and some are not well-formed), and the words that the project's
own build fills in are filled in from VALUES. `, without KEY` behind a title leaves a key out, as jobd-split-users(8) does with UserName.

It prints what differs and what could not be fetched; the status is 1 if a definition differs, or if none could be compared.
"""
import glob
import json
import os
import plistlib
import re
import subprocess
import sys
import tarfile

HERE = os.path.join(os.path.dirname(os.path.abspath(__file__)), "mistakes")
UBUNTU = ("xenial", "bionic", "focal", "jammy", "noble")
DEBIAN = ("bookworm", "trixie", "forky", "sid")
TITLE = re.compile(r"^(\S+) (\S+) of (%s): (.*?)(?:, without (.*))?$" % "|".join(UBUNTU + DEBIAN))
VALUES = {
    "@sbindir@": "/usr/sbin", "@sbindir_POST@": "/usr/sbin", "@bindir@": "/usr/bin", "@prefix@": "/usr", "@PREFIX@": "/opt/bacula",
    "@FD_CONF@": "/opt/bacula/etc/bacula-fd.conf", "@PACKAGE_BASE@": "org.bacula", "@pkgsysconfdir@": "/etc/nagios", "@nrpe_user@": "nagios",
    "@nrpe_group@": "nagios", "@CUPS_USER@": "lp", "@DBUS_DAEMONDIR@": "/usr/bin", "@BINARY_DIR@": "/usr/sbin", "@LOG_DIR@": "/var/log/inspircd",
    "@USER@": "irc", "@GROUP@": "irc", "%bindir%": "/usr/bin", "%couchdb_command_name%": "couchdb", "__ASTERISK_SBIN_DIR__": "/usr/sbin",
    "__libexecdir__": "/usr/libexec", "__bindir__": "/usr/bin", "BUNDLE_ID_PREFIX": "org.x", "LAUNCHAGENT_XSERVER_PATH": "/usr/bin/X",
    "SCRIPTDIR": "/etc/X11/xinit/privileged_startx.d",
}


def converted(raw, without=""):
    """The definition that a property list's bytes give."""
    text = raw[raw.index(b"<?xml"):].decode()
    text = re.sub(r"<!DOCTYPE.*?>", "", text, count=1, flags=re.S)
    for word, value in VALUES.items():
        text = text.replace(word, value)
    left_out = without.split(", ") if without else []
    return {key: value for key, value in plistlib.loads(text.encode()).items() if key not in left_out}


def archives(folder, package, version):
    return [path for path in glob.glob(os.path.join(folder, f"{package}_{version}.orig.tar.*")) if not path.endswith(".asc")]


def in_archive(path, name):
    """The bytes of a file in an archive, whatever its first folder is called."""
    with tarfile.open(path) as archive:
        for member in archive:
            if member.isfile() and member.name.partition("/")[2].endswith(name):
                return archive.extractfile(member).read()
    return None


def prepare(folder, keyring):
    """Lists of apt's own in the folder; gives the environment that uses them."""
    os.makedirs(os.path.join(folder, "lists", "partial"), exist_ok=True)
    os.makedirs(os.path.join(folder, "cache", "archives", "partial"), exist_ok=True)
    debian = "/usr/share/keyrings/debian-archive-keyring.gpg"
    lines = [f"deb-src [signed-by={debian}] http://deb.debian.org/debian {suite} main" for suite in DEBIAN]
    if keyring:
        lines += [f"deb-src [signed-by={keyring}] http://archive.ubuntu.com/ubuntu {suite} main universe" for suite in UBUNTU]
    with open(os.path.join(folder, "sources.list"), "w", encoding="utf-8") as file:
        file.write("\n".join(lines) + "\n")
    with open(os.path.join(folder, "apt.conf"), "w", encoding="utf-8") as file:
        file.write(f'Dir::Etc::sourcelist "{folder}/sources.list";\nDir::Etc::sourceparts "/nonexistent";\n')
        file.write(f'Dir::State::lists "{folder}/lists";\nDir::Cache "{folder}/cache";\n')
    environment = {**os.environ, "APT_CONFIG": os.path.join(folder, "apt.conf")}
    subprocess.run(["apt-get", "-qq", "update"], env=environment, check=True)
    return environment


def cases():
    """The lists in tests/mistakes: package, version, suite, path, keys left out, and the definition."""
    for name in ("right", "wrong", "asked", "fetched"):
        path = os.path.join(HERE, name)
        if not os.path.exists(path):
            continue
        with open(path, encoding="utf-8") as file:
            for case in file.read().split("=== ")[1:]:
                title, _, rest = case.partition("\n")
                if TITLE.match(title):
                    yield (*TITLE.match(title).groups(""), json.loads(rest.partition("\n--- told\n")[0]))


def main(words):
    folder = os.path.abspath(words[0])
    environment, same, differ = None, 0, 0
    for package, version, suite, path, without, wanted in cases():
        if not archives(folder, package, version):
            environment = environment or prepare(folder, os.path.abspath(words[1]) if len(words) > 1 else "")
            # (a file that a mirror lacks beside the archive, as a signature, is no matter)
            subprocess.run(["apt-get", "-qq", "source", "--download-only", f"{package}/{suite}"], cwd=folder, env=environment, capture_output=True, check=False)
        found = [raw for archive in archives(folder, package, version) if (raw := in_archive(archive, path)) is not None]
        if not found:
            print(f"not fetched: {package} {version} of {suite}: {path}")
        elif converted(found[0], without) == wanted:
            same += 1
        else:
            differ += 1
            print(f"differs: {package} {version} of {suite}: {path}: {json.dumps(converted(found[0], without))}")
    print(f"{same} lists are as their projects have them, {differ} differ")
    return int(differ > 0 or same == 0)


if __name__ == "__main__":
    sys.exit(main(sys.argv[1:]))

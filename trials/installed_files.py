#!/usr/bin/python3
"""What manual pages, --help, examples and pages of an installation name is installed too.

    trials/installed_files.py

tools/install.sh installs into a scratch folder, below a prefix with a blank, & and |, where satipctl
has to run. Each path below docs/, examples/ and folders of satip in /usr that an installed text
names, and each link of a page, has to be there; manual pages and --help name no file of the source. Then
--uninstall has to leave nothing. Needs the built program (trials/lib/server.py).

Packages: none
"""

import glob
import os
import re
import subprocess
import sys
import tempfile

sys.dont_write_bytecode = True
from lib.checks import Checks
from lib.server import TOP, program

sys.path[:0] = [TOP]
from satipctl.command import COMMANDS

PREFIX = "/opt/a&b |c"
NAMED = re.compile(r"(?<![\w/.-])((?:docs|examples|/usr/(?:share|lib)(?=/[\w./-]*satip))/[\w./@+-]*[\w/])")
SOURCE = re.compile(r"(?<![\w/.-])((?:tools|trials|bench|crates|bin)/[\w./-]+)")
LINK = re.compile(r"\]\(([\w./-]+)(?:#[\w-]+)?(?: \"[^\"]*\")?\)")
# A manual page writes a minus and a dot with a backslash.
ROFF = re.compile(r"\\([-.&])")


def texts(root):
    """Each installed text with its name and whether it may name files of the source."""
    for path in sorted(glob.glob(f"{root}/share/man/*/*") + glob.glob(f"{root}/share/doc/satip/*/*")):
        if path.endswith((".png", ".journal", ".script")):
            continue
        with open(path, encoding="utf-8") as file:
            yield os.path.relpath(path, root), ROFF.sub(r"\1", file.read()), "/man/" not in path
    yield "satip --help", run(f"{root}/bin/satip", "--help").stdout, False
    for name in COMMANDS:
        words = f"{root}/bin/satipctl", *name.split(), "--help"
        yield f"satipctl {name} --help", run(*words).stdout, False


def run(*words, **more):
    return subprocess.run(words, capture_output=True, text=True, check=False, **more)


def missing_paths(root, name, text):
    """What a text names that isn't installed below the root."""
    for path in NAMED.findall(text):
        below = path.removeprefix("/usr/") if path.startswith("/") else f"share/doc/satip/{path}"
        if not os.path.exists(os.path.join(root, below)):
            yield path
    if name.endswith(".md"):
        for path in LINK.findall(text):
            if not os.path.exists(os.path.join(root, os.path.dirname(name), path)):
                yield path


def main():
    checks = Checks()
    with tempfile.TemporaryDirectory(prefix="satip-") as folder:
        told = {**os.environ, "DESTDIR": folder, "SATIP_PROGRAM": program()}
        ran = run(f"{TOP}/tools/install.sh", PREFIX, env=told)
        root = folder + PREFIX
        count = len(ran.stdout.splitlines())
        checks.check(ran.returncode == 0 and count > 40, f"it installs {count} files below {PREFIX}")
        checks.check("systemd doesn't look" in ran.stderr, "it says that systemd doesn't look there")
        with open(f"{root}/lib/systemd/system/satip.service", encoding="utf-8") as file:
            line = next(it for it in file if it.startswith("ExecStart="))
        checks.check(line == "ExecStart=/opt/a&b\\x20|c/bin/satip serve /etc/satip.toml 0\n", line.strip())
        names = 0
        for name, text, may_name_source in texts(root):
            names += len(NAMED.findall(text))
            absent = sorted(set(missing_paths(root, name, text)))
            checks.check(text and not absent, f"{name} names what is there {absent or ''}")
            if not may_name_source:
                found = sorted(set(SOURCE.findall(text)))
                checks.check(not found, f"{name} names nothing of the source {found or ''}")
        checks.check(names > 20, f"{names} paths are named")
        ran = run(f"{TOP}/tools/install.sh", "--uninstall", PREFIX, env=told)
        left = [it for it in glob.glob(f"{root}/**", recursive=True) if it.rstrip("/") != root]
        checks.check(ran.returncode == 0 and not left, f"--uninstall leaves nothing {left[:3]}")
    checks.end()


if __name__ == "__main__":
    main()

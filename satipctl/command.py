"""The command line of satipctl: finds the module of a subcommand, and runs it.

A module of a subcommand has a docstring, which is its help, `add_words(parser)`, and `run(given)`,
which returns the exit status.
"""

import argparse
import importlib
import os
import sys

COMMANDS = {
    "check": ("check", "says what is wrong with a configuration, before a server starts by it"),
    "status": ("status", "shows front ends, streams and viewers of a running server"),
    "metrics": ("metrics", "writes the same for Prometheus"),
    "page": ("page", "serves one live page of the same"),
    "probe": ("probe", "says in one line whether a server is well, for monitoring"),
    "wait": ("wait", "waits until a server answers"),
    "stop": ("stop", "asks a server to end after its viewers, and waits for it"),
    "channels": ("channels", "writes the channels of a configuration: a table, a playlist, VDR's lines"),
    "new-config": ("new_config", "writes a configuration for recordings"),
    "journal page": ("journal.page", "makes a page of what a server did, from its journals"),
    "journal print": ("journal.lines", "prints the entries of journals"),
    "hold": ("hold", "creates a stream of `satip tunnel` and keeps it"),
}
WRONG_WORDS = 2


class Fault(Exception):
    """Why a subcommand ends early, and with which status."""

    def __init__(self, text, status=2):
        super().__init__(text)
        self.status = status


def overview():
    """The text of --help."""
    lines = ["usage: satipctl COMMAND [WORD..]", ""]
    lines += [f"  {name:<14}{told}" for name, (_, told) in COMMANDS.items()]
    return "\n".join([*lines, "", "satipctl COMMAND --help says more. Manual: man satipctl"])


def chosen(words):
    """The name of the subcommand at the front of the words, and the words after it; or None."""
    for count in (2, 1):
        name = " ".join(words[:count])
        if len(words) >= count and name in COMMANDS:
            return name, words[count:]
    return None, words


def parser_of(name):
    """The module of a subcommand, and the parser of its words."""
    module = importlib.import_module(f"satipctl.{COMMANDS[name][0]}")
    parser = argparse.ArgumentParser(
        prog=f"satipctl {name}",
        description=module.__doc__,
        formatter_class=argparse.RawDescriptionHelpFormatter,
    )
    module.add_words(parser)
    return module, parser


def run(words):
    if words in (["--help"], ["-h"]):
        print(overview())
        return 0
    name, rest = chosen(words)
    if name is None:
        print(overview(), file=sys.stderr)
        return WRONG_WORDS
    module, parser = parser_of(name)
    return module.run(parser.parse_args(rest))


def main(words):
    """Runs the words of the command line; returns the exit status."""
    try:
        status = run(words)
        sys.stdout.flush()
        return status
    except Fault as fault:
        print(f"satipctl: {fault}", file=sys.stderr)
        return fault.status
    except BrokenPipeError:
        # Nobody reads any more; what is left in the buffer must not raise again at the end.
        os.dup2(os.open(os.devnull, os.O_WRONLY), sys.stdout.fileno())
        return 0
    except KeyboardInterrupt:
        return 130
    except OSError as error:
        print(f"satipctl: {error.filename or 'error'}: {error.strerror or error}", file=sys.stderr)
        return 2


def library(name, package):
    """Imports a library, or says which Debian package has it."""
    try:
        return importlib.import_module(name)
    except ImportError as error:
        raise Fault(f"{name} isn't installed: apt-get install {package}") from error

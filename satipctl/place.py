"""Where the files of a running server are: its status file and its stop file."""

import os

from .configuration import USUAL

RUN = "/run"


def add_words(words):
    words.add_argument("config", metavar="CONFIG", nargs="?", default=USUAL, help=USUAL)


def folder(config):
    """The runtime folder of the unit that serves by a configuration: /run/satip for satip.toml, as
    satip.service has it, and /run/satip-NAME for NAME.toml, as satip@NAME.service."""
    name = os.path.splitext(os.path.basename(config))[0]
    return os.path.join(RUN, "satip" if name == "satip" else f"satip-{name}")


def status_file(given):
    return given.status_file or os.environ.get("SATIP_STATUS") or f"{folder(given.config)}/status"


def stop_file(given):
    return given.stop_file or os.environ.get("SATIP_STOP") or f"{folder(given.config)}/stop"

"""Writes a configuration for recordings, and says what to start.

Each FILE becomes a multiplex of its own, and each of up to 16 gets a front end. CONFIG is
satip.toml without the word; one that exists is only written over with --force. ADDRESS is that of
this machine on its network without the word. The ports are 554 and 8875 where they are free and
may be opened, else the next free ones from 18554 and 18875 on.

Of each file it says whether it is a transport stream, its rate, and what SATIP_PACE=recording is
good for. Needs the Debian package ffmpeg (for ffprobe). The status is 1 where a file
was left out, 2 where nothing was written.
"""

import json
import os
import shutil
import socket

from .command import Fault
from .recordings import EVEN_PACE, NoRecording, clock_text, probe, rate_text

BUILT = os.path.join(os.path.dirname(os.path.abspath(__file__)), "../crates/satip/out/satip")
MOST_FRONTENDS, MOST_MUXES, LONGEST_NAME = 16, 256, 255
# Multiplexes stand further apart than the 2 MHz by which a client may miss one.
FIRST_MHZ, STEP_MHZ = 10704, 8

HEAD = """\
# Written by satipctl new-config. The example satip.toml says what each line is.
address = {address}
rtsp_port = {rtsp}
http_port = {http}
workers = 16
"""
FRONTEND = """
[[frontend]]
sources = [1]
systems = ["dvbs2"]
"""
MUX = """
[[mux]]
src = 1
freq = "{freq}"
pol = "h"
msys = "dvbs2"
sr = 22000
file = {file}
"""


def own_address():
    """This machine's address towards its network; the socket sends nothing."""
    with socket.socket(socket.AF_INET, socket.SOCK_DGRAM) as sock:
        try:
            sock.connect(("192.0.2.1", 9))
            return sock.getsockname()[0]
        except OSError:
            return "127.0.0.1"


def is_free(address, port):
    with socket.socket(socket.AF_INET, socket.SOCK_STREAM) as sock:
        sock.setsockopt(socket.SOL_SOCKET, socket.SO_REUSEADDR, 1)
        try:
            sock.bind((address, port))
            return True
        except OSError:
            return False


def free_port(address, usual, first):
    """The usual port or the first free one from another on; None where there is none."""
    ports = (usual, *range(first, min(first + 1000, 65536)))
    return next((port for port in ports if is_free(address, port)), None)


def pace_text(rate):
    """What SATIP_PACE=recording changes for a recording of this rate."""
    if rate <= 0:
        return "its length isn't known, so its own rate isn't either"
    factor = EVEN_PACE / rate
    if 0.98 <= factor <= 1.02:
        return "plays at its own rate, with SATIP_PACE=recording and without"
    way = "fast" if factor > 1 else "slow"
    return f"plays {max(factor, 1 / factor):.1f} times too {way} without SATIP_PACE=recording"


def taken(paths, probe=probe):
    """The recordings that can be played, and whether each file is one; says what each file is."""
    recordings, whole = [], True
    for path in paths:
        try:
            recording = probe(path)
            if len(os.fsencode(os.path.abspath(path))) > LONGEST_NAME:
                raise NoRecording(f"its whole path has more than {LONGEST_NAME} bytes")
            if len(recordings) == MOST_MUXES:
                raise NoRecording(f"one more than the {MOST_MUXES} that a configuration has")
        except NoRecording as fault:
            print(f"{path}: left out: {fault}")
            whole = False
            continue
        names = ", ".join(it.name for it in recording.programmes) or "no programme in its tables"
        told = f"transport stream, {rate_text(recording.bit_rate)}, {clock_text(recording.seconds)}"
        print(f"{path}: {told} ({names});")
        print(f"    {pace_text(recording.bit_rate)}")
        recordings.append(recording)
    return recordings, whole


def multiplex(freq, path):
    """The entry of a recording. A JSON string is a TOML string too."""
    return MUX.format(freq=freq, file=json.dumps(path, ensure_ascii=False))


def config_text(address, rtsp, http, recordings):
    text = HEAD.format(address=json.dumps(address), rtsp=rtsp, http=http)
    text += FRONTEND * min(len(recordings), MOST_FRONTENDS)
    for place, recording in enumerate(recordings):
        text += multiplex(FIRST_MHZ + STEP_MHZ * place, os.path.abspath(recording.path))
    return text


def say_what_to_start(config, recordings):
    own = [it for it in recordings if it.bit_rate and abs(EVEN_PACE / it.bit_rate - 1) > 0.02]
    pace = "SATIP_PACE=recording " if own else ""
    program = "satip" if shutil.which("satip") else os.path.relpath(BUILT)
    print(f"{config} is written. Start the server, which plays each recording again at its end:")
    print(f"    {pace}SATIP_REPEAT=1 {program} serve {config} 0")
    print(f"and see its channels by satipctl channels {config}, or --m3u for a playlist.")


def write(path, text, force):
    try:
        with open(path, "w" if force else "x", encoding="utf-8") as file:
            file.write(text)
    except FileExistsError:
        raise Fault(f"{path} exists already: give --force, or another name by --to") from None
    except OSError as error:
        raise Fault(f"{path}: {error.strerror}") from error


def add_words(words):
    words.add_argument("--address", help="the address that clients reach this machine at")
    words.add_argument("--to", metavar="CONFIG", default="satip.toml", help="what is written")
    words.add_argument("--force", action="store_true", help="writes over a file that exists")
    words.add_argument("files", metavar="FILE", nargs="+", help="a recording")


def run(given):
    recordings, whole = taken(given.files)
    if not recordings:
        raise Fault("none of these can be played, so nothing was written")
    address = given.address or own_address()
    rtsp, http = free_port(address, 554, 18554), free_port(address, 8875, 18875)
    if rtsp is None or http is None:
        raise Fault(f"no port of {address} is free, or it isn't an address of this machine")
    write(given.to, config_text(address, rtsp, http, recordings), given.force)
    say_what_to_start(given.to, recordings)
    return 0 if whole else 1

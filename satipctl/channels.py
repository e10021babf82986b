"""Writes the channels of a configuration, read from the tables of its recordings.

  --table   for people: number, name, PIDs, bit rate and length of the recording, size of the
            picture (without a word too)
  --m3u     a playlist: each programme by satip:// for VLC, then each by http:// for other players
  --vdr     lines for VDR's channels.conf, for its plugin satip

Needs the Debian package ffmpeg (for ffprobe). File names of the
configuration are those of the folder that this is started in, as for `satip serve`. A recording
without programmes is told on standard error and left out; the status is 1 where one was, 2 where
the configuration can't be read.
"""

import sys
import tomllib
from dataclasses import dataclass

from .command import Fault
from .recordings import NoRecording, Programme, Recording, clock_text, probe, rate_text

MUX_KEYS = ("src", "freq", "pol", "msys", "sr", "file")
PLAYLIST_GROUPS = (("satip", "SAT>IP"), ("http", "HTTP"))


@dataclass
class Server:
    address: str
    rtsp_port: int
    http_port: int

    def url(self, scheme, query):
        port = self.rtsp_port if scheme == "satip" else self.http_port
        return f"{scheme}://{self.address}:{port}/?{query}"


@dataclass
class Channel:
    """A programme of the recording of a multiplex."""

    number: int
    mux_number: int
    mux: dict
    recording: Recording
    programme: Programme

    def query(self):
        mux, pids = self.mux, ",".join(map(str, self.programme.pids()))
        tuning = "&".join(f"{key}={mux[key]}" for key in ("src", "freq", "pol", "msys", "sr"))
        return f"{tuning}&pids={pids}"


def channels_of(config):
    """The channels, and whether each multiplex has one; says why one has none."""
    channels, whole = [], True
    for mux_number, mux in enumerate(config.get("mux", []), 1):
        try:
            recording = probe(mux["file"])
        except NoRecording as fault:
            print(f"{mux['file']}: {fault}", file=sys.stderr)
            whole = False
            continue
        if not recording.programmes:
            print(f"{mux['file']}: no programme in its tables", file=sys.stderr)
            whole = False
        for programme in recording.programmes:
            channels.append(Channel(len(channels) + 1, mux_number, mux, recording, programme))
    return channels, whole


def table(_, channels):
    rows = [("number", "name", "PIDs", "bit rate", "length", "picture")]
    for it in channels:
        pids = ",".join(map(str, it.programme.pids()))
        rate, length = rate_text(it.recording.bit_rate), clock_text(it.recording.seconds)
        rows.append((str(it.number), it.programme.name, pids, rate, length, it.programme.size()))
    widths = [max(map(len, column)) for column in zip(*rows)]
    for row in rows:
        yield "  ".join(text.ljust(width) for text, width in zip(row, widths)).rstrip()


def m3u(server, channels):
    yield "#EXTM3U"
    for scheme, group in PLAYLIST_GROUPS:
        for it in channels:
            yield f'#EXTINF:-1 tvg-chno="{it.number}" group-title="{group}",{it.programme.name}'
            yield server.url(scheme, it.query())


def vdr_stream(stream):
    """An audio or subtitling stream: PID=language@type, the language where it is told."""
    language = f"={stream.language}" if stream.language else "="
    return f"{stream.pid}{language}@{stream.type}"


def vdr_pids(programme):
    """The fields VPID, APID and TPID of a line."""
    video = programme.of_kind("video")[:1]
    clock = f"+{programme.pcr_pid}" if video and programme.pcr_pid != video[0].pid else ""
    vpid = f"{video[0].pid}{clock}={video[0].type}" if video else f"1+{programme.pcr_pid}"
    sounds = programme.of_kind("audio")
    plain = ",".join(vdr_stream(it) for it in sounds if it.codec not in ("ac3", "eac3"))
    dolby = ",".join(vdr_stream(it) for it in sounds if it.codec in ("ac3", "eac3"))
    apid = (plain or "0") + (f";{dolby}" if dolby else "")
    texts = programme.of_kind("subtitle")
    teletext = next((str(it.pid) for it in texts if it.codec == "dvb_teletext"), "0")
    subtitles = [f"{it.pid}={it.language or 'und'}" for it in texts if it.codec == "dvb_subtitle"]
    return vpid, apid, teletext + (";" + ",".join(subtitles) if subtitles else "")


def vdr(_, channels):
    """By the grammar of vdr(5); the plugin takes the field RID for the position, 0 for 1."""
    for it in channels:
        mux = it.mux
        second = mux["msys"] == "dvbs2"
        form = "C56M5O35S1" if second else "C34M2O35S0"
        name = it.programme.name.translate(str.maketrans(":;,", "|.."))
        megahertz, rid = mux["freq"].split(".")[0], mux["src"] if mux["src"] > 1 else 0
        fields = [f"{name};satip", megahertz, mux["pol"].upper() + form, "S19.2E", mux["sr"]]
        fields += [*vdr_pids(it.programme), 0, it.programme.number, 1, it.mux_number, rid]
        yield ":".join(map(str, fields))


def read(path):
    """A configuration and its server; only what is used here is looked at."""
    try:
        with open(path, "rb") as file:
            config = tomllib.load(file)
        ports = config.get("rtsp_port", 554), config.get("http_port", 8875)
        for mux in config.get("mux", []):
            for key in MUX_KEYS:
                _ = mux[key]
        return config, Server(config["address"], *ports)
    except KeyError as key:
        fault = f"no {key}"
    except (OSError, tomllib.TOMLDecodeError) as error:
        fault = error
    raise Fault(f"{path}: {fault}")


FORMS = (
    ("--table", table, "for people"),
    ("--m3u", m3u, "a playlist"),
    ("--vdr", vdr, "lines for VDR's channels.conf"),
)


def add_words(words):
    words.add_argument("config", metavar="CONFIG", help="the configuration, as satip.toml")
    form = words.add_mutually_exclusive_group()
    for word, write, told in FORMS:
        form.add_argument(word, dest="form", action="store_const", const=write, help=told)


def run(given):
    config, server = read(given.config)
    channels, whole = channels_of(config)
    for line in (given.form or table)(server, channels):
        print(line)
    return 0 if whole else 1

"""What recordings hold, for channels, new-config and check.

The tables of a transport stream (PAT, PMT, SDT; ISO 13818-1, EN 300 468) are read by ffprobe alone.
Needs the Debian packages python3 and ffmpeg.
"""

import json
import os
import subprocess
from dataclasses import dataclass, field

from .command import Fault

# 64 packets of 188 bytes every 20 ms: the pace of serve in bit/s without SATIP_PACE=recording.
EVEN_PACE = 64 * 188 * 8 * 50


class NoRecording(Exception):
    """Why a file can't be played as a recording."""


@dataclass
class Stream:
    """An elementary stream: its PID, its kind as FFmpeg names it, its stream type in the PMT."""

    pid: int
    kind: str
    codec: str
    type: int
    language: str
    width: int
    height: int


@dataclass
class Programme:
    number: int
    name: str
    provider: str
    pmt_pid: int
    pcr_pid: int
    streams: list[Stream] = field(default_factory=list)

    def pids(self):
        """The PIDs that a client asks for: PAT, SDT, PMT, clock references and all streams."""
        own = {stream.pid for stream in self.streams}
        return sorted({0, 17, self.pmt_pid} | own | ({self.pcr_pid} - {8191}))

    def of_kind(self, *kinds):
        return [stream for stream in self.streams if stream.kind in kinds]

    def size(self):
        """The picture's size as a text, empty where there is no picture."""
        return next((f"{it.width}x{it.height}" for it in self.of_kind("video") if it.width), "")


@dataclass
class Recording:
    path: str
    bit_rate: int
    seconds: float
    programmes: list[Programme]


def has_packets(path):
    """Whether three packets of 188 bytes follow each other from the file's first byte on."""
    with open(path, "rb") as file:
        head = file.read(3 * 188)
    return len(head) == 3 * 188 and head[::188] == b"GGG"


def ask_ffprobe(path):
    words = ["ffprobe", "-v", "error", "-probesize", "20M", "-analyzeduration", "20M"]
    words += ["-show_programs", "-show_format", "-of", "json", f"file:{path}"]
    try:
        ran = subprocess.run(words, stdin=subprocess.DEVNULL, capture_output=True, check=False)
    except FileNotFoundError as error:
        raise Fault("ffprobe isn't installed: apt-get install ffmpeg") from error
    if ran.returncode != 0:
        lines = ran.stderr.decode(errors="replace").strip().splitlines() or ["ffprobe failed"]
        raise NoRecording(lines[-1].removeprefix(f"file:{path}: "))
    return json.loads(ran.stdout)


def stream_of(told):
    return Stream(
        pid=int(told["id"], 0),
        kind=told.get("codec_type", "data"),
        codec=told.get("codec_name", "unknown"),
        type=int(told.get("codec_tag", "0"), 0),
        language=told.get("tags", {}).get("language", ""),
        width=told.get("width", 0),
        height=told.get("height", 0),
    )


def programme_of(told, path):
    """A programme without a name in the SDT is named by its file."""
    tags, number = told.get("tags", {}), told["program_num"]
    stem = os.path.splitext(os.path.basename(path))[0]
    name = tags.get("service_name", "").strip()
    return Programme(
        number=number,
        name=stem if name in ("", "Service01") else name,
        provider=tags.get("service_provider", "").strip(),
        pmt_pid=told["pmt_pid"],
        pcr_pid=told["pcr_pid"],
        streams=[stream_of(it) for it in told.get("streams", []) if "id" in it],
    )


def probe(path):
    """The recording in a file, or NoRecording with the reason."""
    try:
        packets = has_packets(path)
    except OSError as error:
        raise NoRecording(error.strerror) from error
    told = ask_ffprobe(path)
    form = told.get("format", {})
    if form.get("format_name") != "mpegts":
        raise NoRecording(f"no transport stream: {form.get('format_long_name', 'unknown')}")
    if not packets:
        how = "ffmpeg -i OLD -map 0 -c copy NEW.ts makes one"
        raise NoRecording(f"no packets of 188 bytes from its first byte on; {how}")
    seconds = float(form.get("duration", 0))
    rate = int(os.path.getsize(path) * 8 / seconds) if seconds > 0 else 0
    programmes = [programme_of(it, path) for it in told.get("programs", [])]
    return Recording(path, rate, seconds, [it for it in programmes if it.streams])


def clock_text(seconds):
    minutes, rest = divmod(round(seconds), 60)
    hours, minutes = divmod(minutes, 60)
    return f"{hours}:{minutes:02}:{rest:02}"


def rate_text(rate):
    return f"{rate / 1e6:.2f} Mbit/s"

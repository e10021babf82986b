#!/bin/sh
# Makes a recording of a test picture with a tone, at the rate at which a front end plays: 64 packets
# every 20 ms, 4812800 bit/s.
#
#   tools/make_recording.sh FILE [SECONDS]
#
# SECONDS is 60 without the second word. Needs the Debian package ffmpeg.
# PIDs: 0 PAT, 17 SDT, 4096 PMT, 256 picture (MPEG-2), 257 sound (MPEG-1 layer II).
set -eu
if [ $# -lt 1 ]; then
    echo "usage: $0 FILE [SECONDS]" >&2
    exit 2
fi
file=$1
seconds=${2:-60}
exec ffmpeg -hide_banner -loglevel error -y \
    -f lavfi -i "testsrc2=size=720x576:rate=25" \
    -f lavfi -i "sine=frequency=440:sample_rate=48000" \
    -t "$seconds" \
    -c:v mpeg2video -pix_fmt yuv420p -b:v 3500k -minrate 3500k -maxrate 3500k -bufsize 1835k -g 12 \
    -c:a mp2 -b:a 192k \
    -f mpegts -muxrate 4812800 -pat_period 0.1 "$file"

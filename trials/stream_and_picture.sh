#!/bin/sh
# A server plays a test recording, and a client gets a stream over HTTP with a picture in it.
#
#   trials/stream_and_picture.sh [FOLDER]
#
# FOLDER gets a.ts (the recording), satip.toml, stream.ts and picture.png; without the word it is a
# new one. Ends with status 1 if there is no picture. Needs crates/satip/out/satip, which
# `tools/program_alone.sh` builds, or SATIP_PROGRAM, and ports 18554 and 18875 of 127.0.0.1.
#
# Packages: ffmpeg curl
# Limit: 60 s
set -eu
top=$(cd "$(dirname "$0")/.." && pwd)
program=$(realpath "${SATIP_PROGRAM:-$top/crates/satip/out/satip}")
folder=${1:-$(mktemp -d)}
"$top/tools/make_recording.sh" "$folder/a.ts" 30
cp "$folder/a.ts" "$folder/b.ts"
sed 's/^address = .*/address = "127.0.0.1"/' "$top/examples/satip.toml" > "$folder/satip.toml"
cd "$folder"
"$program" serve satip.toml 0 &
server=$!
trap 'kill $server' EXIT
sleep 1
query="src=1&freq=11361.75&pol=h&msys=dvbs2&sr=22000&pids=all"
curl --silent --max-time 5 --output stream.ts "http://127.0.0.1:18875/?$query" || true
ffmpeg -hide_banner -loglevel error -y -i stream.ts -frames:v 1 picture.png
ls -l "$folder/stream.ts" "$folder/picture.png"

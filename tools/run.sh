#!/usr/bin/env bash
# From a clean checkout to a stream: proves and builds the program, serves recordings and watches them.
#
#   tools/run.sh [--check] [--address ADDRESS] [RECORDING..]
#
# First it looks for all that it needs, and says what is missing. It proves and builds the program by
# tools/program_alone.sh, with a line as each crate is proved, unless one is there that was built from
# these sources: tools/kept_program.sh compares the checksum of crates/, crates.txt, HANDLES and the
# kit's version, and that of the program, with what was kept beside it. SATIP_PROGRAM names a program
# that is taken as it is.
#
# Then it writes satip.toml and channels.m3u to the current folder, over those of an earlier run, and
# serves the recordings at their own rate, repeated: those of examples/recordings without a word. It is
# its own first viewer, by `satip record` and over HTTP, and compares what came with the file. It says
# what to open, and serves until Ctrl-C.
#
#   --check              ends after the viewer
#   --address ADDRESS    an address of this machine in its network; 127.0.0.1 without it
#
# The ports are 554 and 8875 where they are free and may be opened, else free ones from 18554 and 18875
# on. Status 0: a viewer got what it asked for. 1: it didn't, the program isn't proved, or the server
# ended. 2: something is missing. Needs the kit's rt in PATH, and the Debian package python3 (3.11); to
# build, also git, and gawk or mawk. If ffprobe is there (ffmpeg) channels have their names.
set -euo pipefail
top=$(cd "$(dirname "$0")/.." && pwd)
program=${SATIP_PROGRAM:-$top/crates/satip/out/satip}

missing() {
  printf 'missing: %s\n' "$1" >&2
  exit 2
}

# Looks for a command of a Debian package.
need() {
  command -v "$1" >/dev/null || missing "$1 (apt-get install $2)"
}

# Proves and builds the program, unless it is there.
build() {
  need git git
  need awk mawk
  need find findutils
  printf 'The program is proved and built first: some 23 minutes on four processors, once.\n'
  "$top/tools/program_alone.sh" || exit 1
}

main() {
  need python3 python3
  if [[ ${1-} == -h || ${1-} == --help ]]; then
    sed -n '2,/^set/s/^# \{0,1\}//p' "$0" | sed '$d'
    exit 0
  fi
  if [[ -z ${SATIP_PROGRAM-} ]]; then
    command -v rt >/dev/null || missing "the kit's rt (README says where the kit is expected; PATH has its bin)"
  fi
  python3 "$top/tools/first_run.py" --look "$@"
  if [[ -n ${SATIP_PROGRAM-} ]]; then
    [[ -x $program ]] || missing "$program, which SATIP_PROGRAM names"
    printf 'The program is %s, as SATIP_PROGRAM says. Nothing is proved of it here.\n' "$program"
  elif "$top/tools/kept_program.sh" stands; then
    printf 'The program was proved and built from these sources.\n'
  else
    build
  fi
  SATIP_PROGRAM=$program exec python3 "$top/tools/first_run.py" "$@"
}

main "$@"

#!/usr/bin/env bash
# Says whether crates/satip/out/satip was built from these sources, and keeps what says so.
#
#   tools/kept_program.sh sum       prints the checksum of the sources
#   tools/kept_program.sh keep      writes crates/satip/out/satip.sources for the program that is there
#   tools/kept_program.sh stands    status 0 if the program is there and satip.sources is of it, else 1
#
# The sources are each file of crates/ but for those of out/ and must-fail/, crates.txt, HANDLES, and
# the kit, by what `rt version` prints. satip.sources has two lines: the SHA-256 of these by name and
# content, and that of the program. Needs the kit's rt in PATH, and the Debian packages bash,
# coreutils and findutils.
set -euo pipefail
export LC_ALL=C
top=$(cd "$(dirname "$0")/.." && pwd)
program=$top/crates/satip/out/satip

sum_of_sources() {
  local kit
  kit=$(rt version)
  cd "$top"
  # Links are followed: the trials of pages run in a folder of links.
  {
    printf '%s\n' "$kit"
    find -L crates -mindepth 1 \( -path 'crates/*/out' -o -path 'crates/*/must-fail' \) -prune -o -type f -print0 |
      sort -z | xargs -0 sha256sum crates.txt HANDLES
  } | sha256sum | cut -d' ' -f1
}

lines() {
  sum_of_sources
  sha256sum <"$program" | cut -d' ' -f1
}

case ${1-} in
  sum) sum_of_sources ;;
  keep) lines >"$program.sources" ;;
  stands) [[ -x $program && -f $program.sources && $(lines) == "$(<"$program.sources")" ]] ;;
  *)
    sed -n '2,/^set/s/^# \{0,1\}//p' "$0" >&2
    exit 2
    ;;
esac

#!/bin/bash
# Makes what a release has: a Debian package, a tar file, the gate's last lines, and sums of all.
#
#   tools/release.sh PROGRAM LOG [FOLDER]
#
# PROGRAM is built from the commit of this checkout, which has no changes; LOG is what `rt ci` wrote
# on it, and has to end with 0 failed. FOLDER is satip-VERSION without the word, and isn't there yet.
# In it are satip_VERSION_ARCHITECTURE.deb (see tools/make_deb.sh for VERSION),
# satip-VERSION-MACHINE-linux.tar.xz with the files of tools/install.sh below usr/local, GATE with
# commit, kit and the last lines of LOG, and SHA256SUMS of the three.
#
# Ends with another status than 0, and without FOLDER, if one of these can't be made. Needs what
# tools/make_deb.sh needs, and the Debian packages coreutils, git, tar and xz-utils.
set -euo pipefail
shopt -s inherit_errexit
top=$(cd "$(dirname "$0")/.." && pwd)

fail() {
    echo "release.sh: $1" >&2
    exit 1
}

[ $# -eq 2 ] || [ $# -eq 3 ] || { sed -n '2,/^set/s/^# \{0,1\}//p' "$0" | sed '$d' >&2; exit 2; }
program=$(realpath "$1")
log=$(realpath "$2")
[ -x "$program" ] || fail "$program isn't a program"
last=$(tail -n 1 "$log")
[[ $last =~ ^[0-9]+\ passed,\ 0\ failed ]] || fail "the gate's last line is '$last'"
changed=$(git -C "$top" status --porcelain)
[ -z "$changed" ] || fail "this checkout has changes"
made=$(mktemp -d)
trap 'rm -rf "$made"' EXIT
mkdir "$made/release"
package=$(cd "$made/release" && "$top/tools/make_deb.sh" "$program")
version=$(echo "$package" | cut -d_ -f2)
folder=${3:-satip-$version}
[ ! -e "$folder" ] || fail "$folder is there already"

DESTDIR=$made/root SATIP_PROGRAM=$program "$top/tools/install.sh" /usr/local > "$made/installed"
moment=$(git -C "$top" log -1 --format=%ct)
tar -C "$made/root" --sort=name --owner=0 --group=0 --numeric-owner --mtime="@$moment" \
    -cJf "$made/release/satip-$version-$(uname -m)-linux.tar.xz" usr
{
    echo "commit $(git -C "$top" rev-parse HEAD)"
    echo "kit $(rt version)"
    tail -n 5 "$log"
} > "$made/release/GATE"
(cd "$made/release" && sha256sum -- * > "$made/sums" && mv "$made/sums" SHA256SUMS)
mv "$made/release" "$folder"
echo "$folder"

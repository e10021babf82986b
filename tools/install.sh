#!/bin/sh
# Installs satip, satipctl, their pages, the examples and the units of systemd below a prefix.
#
#   tools/install.sh [--uninstall] [PREFIX]
#
# PREFIX is /usr/local without the word. A packager sets DESTDIR, which goes in front of every path
# that is written and is in none of the files. SATIP_PROGRAM names the program,
# crates/satip/out/satip without it (`tools/program_alone.sh` builds it). Nothing is started, and
# /etc is left alone. With --uninstall the same files are removed, and folders that are then empty.
# Needs the Debian packages coreutils and sed; satipctl needs python3 (3.11), and for some commands
# python3-jsonschema, python3-prometheus-client, python3-rich and ffmpeg.
set -eu
top=$(cd "$(dirname "$0")/.." && pwd)
uninstall=
if [ "${1-}" = --uninstall ]; then
    uninstall=1
    shift
fi
prefix=${1:-/usr/local}
program=${SATIP_PROGRAM:-$top/crates/satip/out/satip}
case $prefix in
/*) ;;
*)
    echo "usage: [DESTDIR=FOLDER] [SATIP_PROGRAM=FILE] $0 [--uninstall] [PREFIX], PREFIX from the root on" >&2
    exit 2
    ;;
esac
if [ $# -gt 1 ]; then
    echo "$0: one PREFIX, not $#" >&2
    exit 2
fi
if [ -z "$uninstall" ] && [ ! -x "$program" ]; then
    echo "$program isn't there: tools/program_alone.sh builds it" >&2
    exit 1
fi
[ -z "$uninstall" ] || program=$0
to=${DESTDIR:-}$prefix
folder=$(mktemp -d)
trap 'rm -rf "$folder"' EXIT
tab=$(printf '\t')

# The prefix in a unit: systemd reads blanks as ends of words and % as its own; sed reads &, | and \.
in_unit() {
    printf '%s' "$prefix" | sed -e 's/%/%%/g' -e 's/\\/\\\\/g' -e 's/ /\\x20/g' | sed -e 's/[&|\\]/\\&/g'
}

units() {
    for name in satip.service satip@.service; do
        sed "s|/usr/local/bin/|$(in_unit)/bin/|" "$top/examples/$name" > "$folder/$name"
        printf '644\t%s\t%s\n' "$folder/$name" "lib/systemd/system/$name"
    done
}

remove() {
    rm -f "$to/$1"
    echo "removed $to/$1"
    parent=$(dirname "$to/$1")
    while [ "$parent" != "$to" ] && rmdir "$parent" 2> /dev/null; do parent=$(dirname "$parent"); done
}

"$top/tools/installed_files.sh" "$program" "$folder" > "$folder/list"
units >> "$folder/list"
while IFS=$tab read -r mode file place; do
    if [ -n "$uninstall" ]; then
        remove "$place"
    else
        install -D -m "$mode" "$file" "$to/$place"
        echo "$to/$place"
    fi
done < "$folder/list"
if [ -n "$uninstall" ]; then exit; fi
case $prefix in
/usr | /usr/local) ;;
*) echo "systemd doesn't look below $prefix: systemctl link '$prefix/lib/systemd/system/satip.service'" >&2 ;;
esac

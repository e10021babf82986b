#!/bin/sh
# Prints what is installed below a prefix: MODE, file and place, with tabs between them.
#
#   tools/installed_files.sh PROGRAM FOLDER
#
# tools/install.sh and tools/make_deb.sh install this list, so that both have the same. Files that are
# changed for that are made in FOLDER: pages in docs/ lose their links to pages that aren't installed,
# and name the commands as they are installed.
set -eu
top=$(cd "$(dirname "$0")/.." && pwd)
program=$1
folder=$2

put() {
    [ -e "$2" ] || { echo "$2 isn't there" >&2; exit 1; }
    printf '%s\t%s\t%s\n' "$1" "$2" "$3"
}

mkdir -p "$folder/docs"
printf 'Files below tools/, trials/, bench/ and crates/ are those of the source.\n\n' > "$folder/note"

# A page of docs/ as it is installed.
page() {
    sed -E -e 's/\[([^]]*)\]\((\.\.\/)?(README|CHANGELOG|CONTRIBUTING|ARCHITECTURE|DECISIONS|DEFINITIONS|LAYERS|PROOFS|SPEED|TRIALS)\.md(#[^)]*)?( "[^"]*")?\)/\1/g' \
        -e 's/bin\/satipctl/satipctl/g' -e 's/crates\/satip\/out\/satip/satip/g' \
        -e "2r $folder/note" "$top/docs/$1" > "$folder/docs/$1"
    put 644 "$folder/docs/$1" "share/doc/satip/docs/$1"
}

put 755 "$program" bin/satip
put 755 "$top/bin/satipctl" bin/satipctl
for file in "$top"/satipctl/*.py "$top"/satipctl/*.html "$top"/satipctl/journal/*.py "$top"/satipctl/journal/*.html; do
    put 644 "$file" "lib/satip/${file#"$top"/}"
done
put 644 "$top/examples/satip.schema.json" lib/satip/satip.schema.json
for name in satip.1 satipctl.1; do
    put 644 "$top/docs/$name" "share/man/man1/$name"
    # Pages and --help name them so.
    put 644 "$top/docs/$name" "share/doc/satip/docs/$name"
done
for name in USING.md SYSTEM.md SCALING.md PROTOCOL.md; do
    page "$name"
done
put 644 "$top/docs/journal.png" share/doc/satip/docs/journal.png
put 644 "$top/examples/satipctl.bash" share/bash-completion/completions/satipctl
for file in "$top"/examples/*; do
    [ -f "$file" ] || continue
    case $file in
    *.service | *.bash) ;;
    *) put 644 "$file" "share/doc/satip/examples/${file##*/}" ;;
    esac
done

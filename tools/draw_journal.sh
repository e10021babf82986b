#!/bin/sh
# Draws docs/journal.png: the page of a server's journals, from a run with real clients.
#
#   tools/draw_journal.sh [PICTURE]
#
# trials/page_of_a_journal.py makes the journals and the page, and Chromium draws it with its first
# refused request chosen. Needs what the trial needs, and the Debian packages chromium and ffmpeg.
# Ends with a status other than 0 if the trial or the drawing fails.
set -eu
top=$(cd "$(dirname "$0")/.." && pwd)
picture=${1:-$top/docs/journal.png}
folder=$(mktemp -d)
trap 'rm -rf "$folder"' EXIT
"$top/trials/page_of_a_journal.py" --keep "$folder" > "$folder/facts" || { cat "$folder/facts"; exit 1; }
page=$(sed -n 's/^page: //p' "$folder/facts")
chromium --headless --no-sandbox --hide-scrollbars --window-size=1280,1240 \
    --screenshot="$folder/page.png" "$page" 2> "$folder/errors" || { cat "$folder/errors"; exit 1; }
colours='split[a][b];[a]palettegen=max_colors=96[p];[b][p]paletteuse=dither=none'
ffmpeg -loglevel error -y -i "$folder/page.png" -vf "$colours" "$picture"

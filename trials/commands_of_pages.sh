#!/bin/bash
# Each command of README and of docs/USING.md works but those marked to be skipped or done by hand.
#
#   trials/commands_of_pages.sh [PAGE..]
#
# Each fenced block that begins with ```sh is run, in a scratch folder that has each entry of the
# repository by a link and keeps what earlier blocks wrote. A block's mark is an HTML comment on
# the line above its fence:
#
#   <!-- try: skip, REASON -->   nothing of it is run
#   <!-- try: server -->         it runs in the background until the pages end, or the next one
#   <!-- try: N seconds -->      each line is a command that gets N seconds; being ended by that is
#                                no failure
#   <!-- try: N seconds beside -->   the same, but all in parallel: each begins two seconds after the
#                                one before it
#
# Without a mark it is run whole by `bash -e`, for ten minutes at most. A line that ends with a
# comment that begins '# by hand' isn't run. A command that isn't installed is a failure. VLC refuses
# root: if this is run as root, cvlc runs as the user that VLC_USER names, nobody without it. If
# there is no display, its pictures and its sound go nowhere. Ends with status 1 if a command failed.
# The built program is crates/satip/out/satip, or the one that SATIP_PROGRAM names.
#
# Packages: ffmpeg curl vlc-bin vlc-plugin-base gstreamer1.0-tools gstreamer1.0-plugins-good
# Packages: gstreamer1.0-plugins-bad
# Limit: 900 s
set -u
top=$(cd "$(dirname "$0")/.." && pwd)
if [ $# -eq 0 ]; then set -- "$top/README.md" "$top/docs/USING.md"; fi
scratch=$(mktemp -d)
pages=$scratch/pages
cat "$@" > "$pages" || exit 1
server=
failed=0
ran=0

# Each block becomes two files: N.mark, empty or its mark, and N.sh.
cut_blocks() {
    awk -v folder="$scratch/blocks" '
        /^```/ && inside { close(name); inside = 0; before = ""; next }
        /^```/ && !other && $0 == "```sh" {
            inside = 1; name = sprintf("%s/%03d.sh", folder, ++count)
            mark = ""
            if (before ~ /^<!-- try: .* -->$/) mark = substr(before, 11, length(before) - 14)
            file = sprintf("%s/%03d.mark", folder, count)
            printf "%s", mark > file; close(file); printf "" > name
            next
        }
        /^```/ { other = !other; before = ""; next }
        inside { if ($0 !~ /# by hand/) print > name; next }
        { before = $0 }' "$pages"
}

stop_server() {
    if [ -n "$server" ]; then
        kill -- "-$server" 2> "$scratch/null"
        wait "$server" 2> "$scratch/null"
        server=
    fi
}

finish() {
    stop_server
    rm -rf "$scratch"
}

say_failed() {
    echo "FAILED: $1 ($2)"
    failed=$((failed + 1))
}

# The next block waits until a process of the server's group has a port that listens.
start_server() {
    stop_server
    setsid bash -e "$1" < /dev/null 2> "$scratch/server" &
    server=$!
    for _ in $(seq 100); do
        sleep 0.2
        if ! kill -0 "$server" 2> "$scratch/null"; then
            show "$scratch/server"
            server=
            return 1
        fi
        if opened_by "$server"; then
            show "$scratch/server"
            return 0
        fi
    done
    return 1
}

# The last lines of what a command wrote.
show() {
    tail -20 "$1" | cut -c1-160 | sed 's/^/    /'
}

# Whether a process of the group has a listening socket, by /proc alone.
opened_by() {
    python3 - "$1" << 'PYTHON'
import glob, os, sys
group = int(sys.argv[1])
listening = {line.split()[9] for line in open("/proc/net/tcp") if line.split()[3] == "0A"}
for file in glob.glob("/proc/[0-9]*/fd/*"):
    try:
        inode = os.readlink(file).removeprefix("socket:[").removesuffix("]")
        if inode in listening and os.getpgid(int(file.split("/")[2])) == group:
            sys.exit(0)
    except OSError:
        continue
sys.exit(1)
PYTHON
}

# The commands of a block into `commands`; one that goes over lines by '\' is one.
read_commands() {
    local line command=
    commands=()
    while IFS= read -r line || [ -n "$line" ]; do
        command+=${line%\\}
        [ "${line%\\}" = "$line" ] || continue
        case $command in '' | '#'*) ;; *) commands+=("$command") ;; esac
        command=
    done < "$1"
}

# One command for some seconds; what it writes goes to a separate file.
run_for() {
    timeout --kill-after=5 "$1" bash -e -c "$2" < /dev/null > "$3" 2>&1
}

# 124 is the status of timeout(1) for a command that it ended. VLC goes on if it can't play.
judge() {
    ran=$((ran + 1))
    if [ "$1" -ne 0 ] && [ "$1" -ne 124 ]; then
        show "$3"
        say_failed "$2" "status $1"
    elif grep -q 'unable to open' "$3"; then
        show "$3"
        say_failed "$2" "it opened nothing"
    fi
}

run_lines() {
    local command
    read_commands "$2"
    for command in "${commands[@]}"; do
        echo "  \$ $command"
        run_for "$1" "$command" "$scratch/told"
        judge $? "$command" "$scratch/told"
    done
}

# Each command begins two seconds after the one before it.
run_beside() {
    local place pids=()
    read_commands "$2"
    for place in "${!commands[@]}"; do
        echo "  \$ ${commands[place]} &"
        run_for "$1" "${commands[place]}" "$scratch/told.$place" &
        pids+=($!)
        sleep 2
    done
    for place in "${!commands[@]}"; do
        wait "${pids[place]}"
        judge $? "${commands[place]}" "$scratch/told.$place"
    done
}

run_whole() {
    sed 's/^/  $ /' "$1"
    timeout --kill-after=5 600 bash -e "$1" < /dev/null > "$scratch/told" 2>&1
    status=$?
    ran=$((ran + 1))
    show "$scratch/told"
    [ $status -eq 0 ] || say_failed "the block above" "status $status"
}

run_block() {
    local mark
    mark=$(cat "${1%.sh}.mark")
    echo "block $(basename "$1" .sh)${mark:+: $mark}"
    case $mark in
    skip,*) sed 's/^/  - /' "$1" ;;
    server)
        sed 's/^/  $ /' "$1"
        ran=$((ran + 1))
        start_server "$1" || say_failed "the server above" "it opened no port"
        ;;
    [1-9]*' seconds') run_lines "${mark% seconds}" "$1" ;;
    [1-9]*' seconds beside') run_beside "${mark% seconds beside}" "$1" ;;
    '') run_whole "$1" ;;
    *) say_failed "the mark" "'$mark' isn't one" ;;
    esac
}

# Puts a cvlc before the real one in PATH, for root and for a machine without a display.
let_vlc_play() {
    local words=(exec)
    [ "$(id -u)" -ne 0 ] || words+=(runuser -u "${VLC_USER:-nobody}" -- env HOME=/tmp)
    words+=("$(command -v cvlc)")
    [ -n "${DISPLAY:-}${WAYLAND_DISPLAY:-}" ] || words+=(--vout dummy --aout dummy)
    printf '#!/bin/sh\n%s "$@"\n' "${words[*]}" > "$scratch/bin/cvlc"
    chmod 755 "$scratch" "$scratch/bin" "$scratch/bin/cvlc"
    PATH=$scratch/bin:$PATH
}

# The program at the place at which the pages name it.
put_program() {
    local crates=$scratch/work/crates
    rm "$crates"
    mkdir "$crates"
    ln -s "$top"/crates/* "$crates/"
    rm "$crates/satip"
    mkdir -p "$crates/satip/out"
    ln -s "$(realpath "$1")" "$crates/satip/out/satip"
}

trap finish EXIT
trap 'exit 1' INT TERM
mkdir "$scratch/blocks" "$scratch/work" "$scratch/bin"
if command -v cvlc > "$scratch/null"; then
    let_vlc_play
fi
ln -s "$top"/* "$scratch/work/"
if [ -n "${SATIP_PROGRAM:-}" ]; then put_program "$SATIP_PROGRAM"; fi
cut_blocks
cd "$scratch/work" || exit 1
for block in "$scratch"/blocks/*.sh; do
    [ -e "$block" ] && run_block "$block"
done
echo "$ran run, $failed failed"
[ "$ran" -gt 0 ] && [ "$failed" -eq 0 ]

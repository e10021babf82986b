#!/usr/bin/env bash
# Measures what the gate costs, in processor seconds and seconds by the clock: each crate's check, the
# check of its tests, and its must-fail edits, the dearest first; rt's own seconds, and those of the
# other processes that rt starts.
#
#   tools/gate_times.sh record LOG [NAME..]
#       runs `rt ci` at the top, with --anew on a kit that has it, so that everything is proved; writes
#       LOG when it ends, and what rt prints to LOG.out. Seconds by the clock are those of the gate
#       only if nothing else runs. Takes names of crates only if the kit's rt ci does
#   KEEP=1 tools/gate_times.sh record LOG [NAME..]
#       runs `rt ci` without --anew. On a kit that has --anew it proves what changed since the last run
#   tools/gate_times.sh LOG
#       prints the table of a log
#   tools/gate_times.sh seconds LOG
#       prints the processor seconds of each library and program, as lines of tools/proof_seconds.txt
#
# A line of LOG is one check: its kind (library, tests, seed or edit), its crate, its edit or -, and
# both times. The line `rt` has the processor seconds of rt itself, a Python program, which hashes the
# crates' files; the line `others` those of its other processes, such as linkers, compiled tests and
# programs, and what checks used after they were sampled last. Both have the seconds of the whole run
# by the clock. Samples are taken once a second. Ends with the status of rt ci. Needs the kit, and the
# Debian packages bash, gawk or mawk, and procps.
set -euo pipefail
# Edits are numbered in the order of their bytes.
export LC_ALL=C
top=$(cd "$(dirname "$0")/.." && pwd)

usage() {
  sed -n '2,/^set/s/^# \{0,1\}//p' "$0" >&2
  exit 2
}

# Numbers a check of an edit on a kit that doesn't: they come in the order of the edits, and last that of the crate as it is.
next_of() {
  local count=${tried[$1]:-0}
  tried[$1]=$((count + 1))
  printf -v "$2" '%s' "$count"
}

# Names the check that a process makes, from its words. No other process gets a name.
name_of() {
  local -a words
  mapfile -d '' -t words 2>/dev/null <"/proc/$1/cmdline" || return 0
  local kind='' crate='' number='' at
  [[ ${words[0]-} == */rattle ]] || return 0
  # A check over no earlier work is that of an edit, of a crate that has a single one.
  case ${words[1]-} in build) kind=library ;; check) kind=edit ;; *) return 0 ;; esac
  for at in "${!words[@]}"; do
    case ${words[at]} in
      --crate-name) crate=${words[at + 1]} ;;
      --test) kind=tests ;;
      */rt-edits-*/[0-9]*) number=${words[at]##*/} ;;
      */rt-edits-*/seed) kind=seed number= ;;
      */rt-proved-*/checked) kind=library number= ;;
    esac
  done
  [[ -n $crate ]] || return 0
  if [[ $kind == edit && -z $number ]]; then next_of "$crate" number; fi
  [[ $kind == edit ]] || number=
  name="$kind $crate $(edit_of "$crate" "$number")"
  # The last check of a crate's edits is of none of them.
  if [[ $name == *' unknown' ]]; then name="seed $crate -"; fi
}

# Prints the name of a crate's edit, by its place in the order of names.
edit_of() {
  [[ -n $2 ]] || { printf -- '-'; return; }
  local -a edits=("$top/crates/$1/must-fail/"*.edit)
  basename "${edits[$2]-unknown}" .edit
}

# The words of a process's stat that follow its name.
stat_of() {
  local text
  text=$(cat "/proc/$1/stat" 2>/dev/null) && printf '%s' "${text##*) }"
}

# Says whether a process was started by this run of the gate, and not by another rt on the machine.
is_ours() {
  local pid=$1
  local -a stat
  while ((pid > 1)); do
    if ((pid == gate)); then return 0; fi
    read -r -a stat <<<"$(stat_of "$pid")"
    pid=${stat[1]-0}
  done
  return 1
}

# Reads what rt itself has used so far, and all processes that it started and that have ended.
watch_rt() {
  local text
  local -a stat
  text=$(stat_of "$gate") || return 0
  read -r -a stat <<<"$text"
  # A process that has ended and isn't waited for yet has no more than these.
  [[ -n ${stat[14]-} ]] || return 0
  own[rt]=$((stat[11] + stat[12]))
  own[ended]=$((stat[13] + stat[14]))
}

# Reads once a second what rt, and each check with the processes that it started, has used so far, in clock ticks.
watch_checks() {
  local hz pid root key text ticks name
  local -a stat
  local -A now tried
  hz=$(getconf CLK_TCK)
  while sleep 1; do
    watch_rt
    now=()
    # Newer releases of procps refuse a pattern of more than 15 characters, so each name is asked for by itself.
    for pid in $(pgrep -x rattle; pgrep -x antt-kernel); do
      root=$pid
      text=$(stat_of "$pid") || continue
      read -r -a stat <<<"$text"
      ticks=$((stat[11] + stat[12] + stat[13] + stat[14]))
      if [[ $(cat "/proc/${stat[1]}/comm" 2>/dev/null) == rattle ]]; then
        root=${stat[1]}
        text=$(stat_of "$root") || continue
        read -r -a stat <<<"$text"
      fi
      key=$root:${stat[19]}
      if [[ -z ${check[$key]-} ]]; then
        name=-
        if is_ours "$root"; then name_of "$root"; fi
        check[$key]=$name
      fi
      now[$key]=$((${now[$key]-0} + ticks))
      first[$key]=${first[$key]-$SECONDS}
      last[$key]=$SECONDS
    done
    for key in "${!now[@]}"; do
      if ((now[$key] > ${used[$key]:-0})); then used[$key]=${now[$key]}; fi
    done
  done
}

# Writes a line for each check, one for rt, and one for what else rt started, with whole seconds.
write_log() {
  local key checks=0 others hz
  hz=$(getconf CLK_TCK)
  {
    for key in "${!check[@]}"; do
      [[ ${check[$key]:--} != - ]] || continue
      checks=$((checks + ${used[$key]:-0}))
      printf '%s %s %s\n' "${check[$key]}" "$(((${used[$key]:-0} + hz / 2) / hz))" "$((last[$key] - first[$key] + 1))"
    done
    others=$((own[ended] > checks ? own[ended] - checks : 0))
    printf 'rt - - %s %s\n' "$(((own[rt] + hz / 2) / hz))" "$SECONDS"
    printf 'others - - %s %s\n' "$(((others + hz / 2) / hz))" "$SECONDS"
  } >"$1"
}

record() {
  declare -A check used first last
  declare -A own=([rt]=0 [ended]=0)
  local log=$1 help
  shift
  # Kits whose rt ci keeps what it proved take this word.
  help=$(rt help 2>&1) || true
  if [[ -z ${KEEP-} && ${help%%rt must-fail *} == *--anew* ]]; then set -- --anew "$@"; fi
  SECONDS=0
  # By exec the number of this process is rt's own.
  (cd "$top" && exec rt ci "$@") >"$log.out" 2>&1 &
  local gate=$!
  # The subshell's end writes the log, however it ends.
  (
    trap 'write_log "$log"' EXIT
    trap 'exit 0' TERM INT
    watch_checks
  ) &
  local watch=$!
  local status=0
  wait "$gate" || status=$?
  kill "$watch" || true
  wait "$watch" || true
  tail -n 1 "$log.out"
  return "$status"
}

table() {
  awk '
    { cpu[$1] += $4; n[$1]++; all += $4 }
    $1 == "rt" { clock = $5 }
    END {
      count = split("library tests seed edit", kinds)
      for (i = 1; i <= count; i++) printf "%-12s %5d checks %8d s\n", kinds[i], n[kinds[i]], cpu[kinds[i]]
      printf "%-12s %21d s\n%-12s %21d s\n", "rt itself", cpu["rt"], "others", cpu["others"]
      printf "%-12s %21d s\n%-12s %21d s\n", "all", all, "by the clock", clock
    }' "$1"
  local kind
  for kind in library tests edit; do
    printf '\nThe dearest of kind %s: processor seconds, seconds by the clock\n' "$kind"
    awk -v kind="$kind" '$1 == kind { print $4, $5, $2, ($3 == "-" ? "" : $3) }' "$1" | sort -rn | head -20
  done
  printf '\nEdits by crate: how many, processor seconds with their seed\n'
  awk '
    $1 == "edit" { n[$2]++ }
    $1 == "edit" || $1 == "seed" { s[$2] += $4 }
    END { for (c in s) print s[c], n[c] + 0, c }' "$1" | sort -rn
}

case ${1-} in
  "" | -*) usage ;;
  record)
    [[ $# -ge 2 ]] || usage
    shift
    record "$@"
    ;;
  seconds)
    [[ $# -eq 2 ]] || usage
    awk '$1 == "library" { print $2, $4 }' "$2"
    ;;
  *) table "$1" ;;
esac

#!/usr/bin/env bash
# Proves and builds the program, crates/satip/out/satip, by the gate over a copy of the crates that it
# stands on alone. What kit 13f proves so isn't proved again by `rt ci` at the top, and the other way.
#
#   tools/program_alone.sh [FOLDER]
#
# Copies into FOLDER, which is empty or not there, crates.txt with the line of crate satip and those
# of the crates below it, these crates without their edits, and HANDLES. Runs `rt ci` there: it proves
# each crate, as many side by side as there are processors and memory, and builds and runs the program
# as two compilers make it. Copies the program, as LLVM built it, to crates/satip/out/satip, and beside
# it what says that it was built from these sources (tools/kept_program.sh). Without FOLDER it works in
# a folder of temporary files, and removes it.
#
# Prints a line as each crate is proved (tools/proof_progress.py), and what isn't proved; all that rt ci
# prints is in crates/satip/out/proof.log. Says at the end how long rt ci took. Ends with the status of
# rt ci, and with 2 if FOLDER isn't empty or there is no program. Needs the kit's rt in PATH, and the
# Debian packages bash, coreutils, findutils, git, python3, and gawk or mawk.
set -euo pipefail
export LC_ALL=C
top=$(cd "$(dirname "$0")/.." && pwd)

fail() {
  printf 'program_alone.sh: %s\n' "$1" >&2
  exit 2
}

# Prints the lines of crates.txt of a crate and of those below it, in the order of the file.
lines_below() {
  awk -v top="$1" '
    { sub(/#.*/, "") }
    /:/ {
      at = index($0, ":")
      split(substr($0, 1, at - 1), head, " ")
      name = head[1]
      names[++count] = name
      line[name] = $0
      deps[name] = substr($0, at + 1)
    }
    # A crate of the repository is needed once; what else is listed is a library of the kit.
    function need(name, list, n, i) {
      if (!(name in line) || name in needed) return
      needed[name] = 1
      n = split(deps[name], list, " ")
      for (i = 1; i <= n; i++) need(list[i])
    }
    END {
      need(top)
      for (i = 1; i <= count; i++) if (names[i] in needed) print line[names[i]]
    }' "$top/crates.txt"
}

# Copies a crate without what was built and without edits.
copy_crate() {
  local from=$top/crates/$1 to=$2/crates/$1 part
  mkdir -p "$to"
  for part in "$from"/*; do
    case ${part##*/} in
      out | must-fail) ;;
      *) cp -R "$part" "$to/" ;;
    esac
  done
}

# Runs the gate in a folder, and says how far it is.
run_gate() {
  local log=$2 statuses
  set +e
  (cd "$1" && rt ci 2>&1) | "$top/tools/proof_progress.py" --log "$log" "$1/crates.txt"
  statuses=("${PIPESTATUS[@]}")
  set -e
  # A fault that isn't of a proof, as that of a program's run.
  if [[ ${statuses[0]} != 0 && ${statuses[1]} == 0 ]]; then tail -n 30 "$log"; fi
  return "${statuses[0]}"
}

# Copies the crates to a folder, and runs the gate there.
prove() {
  local crate status=0 begun=$SECONDS log=$top/crates/satip/out/proof.log
  # rt ci wants crates.txt at the top of a repository, and the folder may be inside of another.
  git init -q "$1"
  cp "$top/HANDLES" "$1/"
  lines_below satip >"$1/crates.txt"
  [[ -s $1/crates.txt ]] || fail "crates.txt has no crate satip"
  while read -r crate; do
    copy_crate "$crate" "$1"
  done < <(awk '{ sub(/[ :].*/, ""); print $1 }' "$1/crates.txt")
  mkdir -p "${log%/*}"
  printf '%s crates in %s; what rt ci prints is in %s\n' "$(wc -l <"$1/crates.txt")" "$1" "$log"
  run_gate "$1" "$log" || status=$?
  printf 'rt ci: %s, status %s, %s s\n' "$(tail -n 1 "$log")" "$status" "$((SECONDS - begun))"
  return "$status"
}

main() {
  [[ $# -le 1 && ${1-} != -* ]] || fail "usage: tools/program_alone.sh [FOLDER]"
  local folder=${1-} status=0 built sources
  if [[ -z $folder ]]; then
    folder=$(mktemp -d "${TMPDIR:-/tmp}/satip-program-XXXXXX")
    # shellcheck disable=SC2064 # The folder is the one of now.
    trap "rm -rf '$folder'" EXIT
  fi
  mkdir -p "$folder"
  folder=$(cd "$folder" && pwd)
  [[ -z $(ls -A "$folder") ]] || fail "$folder isn't empty"
  sources=$("$top/tools/kept_program.sh" sum)
  prove "$folder" || status=$?
  [[ $status == 0 ]] || return "$status"
  built=$folder/crates/satip/out/satip
  [[ -x $built ]] || fail "rt ci left no program in $folder"
  cp "$built" "$top/crates/satip/out/"
  if [[ $("$top/tools/kept_program.sh" sum) == "$sources" ]]; then
    "$top/tools/kept_program.sh" keep
  else
    printf 'The sources were changed meanwhile, so tools/run.sh will prove them again.\n'
  fi
  printf 'the program: %s\n' "$top/crates/satip/out/satip"
}

main "$@"

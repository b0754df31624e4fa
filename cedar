#!/usr/bin/env bash
# Runs the program `cedar` with the words given: the one of release/, if it was built from the sources of this checkout; else the
# proved one that ./build has made, if no source is newer. Else it says so on standard error and builds the program without proof,
# for this run alone, which takes two to four minutes. Such a run has an hour, and its output, of at most 1 MiB, comes at its end.
#
# tools/gate/built.py compares program and sources, which takes a fifth of a second. What it found is kept in .cedar with the inode, the
# size and the times of each file that it read. It compares again where one of these differs, and where nothing could be kept.
#
# `./cedar test` runs tools/cedar-test, which tests policies, with that program.
set -eu
script=${BASH_SOURCE[0]}
[ ! -L "$script" ] || script=$(readlink -f -- "$script")
[[ $script =~ ^\.{0,2}/ ]] || script=./$script
top=${script%/*} kept=${script%/*}/.cedar began=${EPOCHSECONDS:-0} room=

fail() {
  echo "cedar: $1" >&2
  exit 1
}

# Tests policies in place of this script.
run_tests() {
  command -v python3 > /dev/null || fail "python3 is not on the path, and runs tools/cedar-test: install it"
  exec python3 "$top/tools/cedar-test" "$@"
}

# Runs a program in place of this script.
run() {
  [ -x "$1" ] || fail "$1 cannot be executed: run chmod +x, or copy it to a file system that is not mounted with noexec"
  [ "${2:-}" != test ] || run_tests --program "$1" "${@:3}"
  exec "$@"
}

# Prints what is kept of each file, if it fits these words of `find`.
files() {
  shopt -s nullglob
  find -L "$top"/{crates.txt,release,tools/gate/built.py} "$top"/crates/*/{src,specs,proofs} "$top"/crates/cedar/out/ceda[r] "$@" \
    -printf '%i %s %T@ %C@ %P\n' 2> /dev/null
}

if [ -r "$kept" ] && IFS= read -r program < "$kept" && { echo "$program"; files; } 2> /dev/null | cmp -s - "$kept" 2> /dev/null; then
  run "$top/$program" "$@"
fi
command -v python3 > /dev/null ||
  fail "python3 is not on the path, and compares release/cedar with the sources: install it, or run release/cedar itself"
now=
[ ! -w "$top" ] || now=$(files) || now=
if found=$(python3 "$top/tools/gate/built.py" 2> /dev/null); then
  program=release/cedar
  [ "$found" -ef "$top/$program" ] || program=crates/cedar/out/cedar
  # A file that has just changed could change once more without another time.
  if [ -n "$now" ] && [ -z "$(files -newerct "@$((began - 2))")" ]; then
    { rm -f "$kept" && printf '%s\n' "$program" "$now" > "$kept"; } 2> /dev/null || true
  fi
  run "$top/$program" "$@"
fi

# Nothing is built for tests of policies: the script says what it lacks, and may be given a program.
[ "${1:-}" != test ] || run_tests "${@:2}"

# Before anything is built, a command line or a file that the program would refuse is refused.
python3 "$top/tools/running/command_line" "$@" || exit $?
python3 "$top/tools/gate/built.py" > /dev/null || true
command -v rt > /dev/null || fail "to build it, the toolchain's command rt has to be on the path"
echo "cedar: this run builds the program without proof; ./build --program makes the proved one" >&2

# Such a build runs in a folder of its own, so the file that an option names is handed to it under a name there.
no_room="${TMPDIR:-/tmp} has no room for temporary files: set TMPDIR to a folder that has"
trap '[ -z "$room" ] || rm -rf "$room"' EXIT
room=$(mktemp -d 2> /dev/null) || fail "$no_room"
[[ $room = /* ]] || room=$PWD/$room
words=() files=() before=
for word in "$@"; do
  name=${word#--*=}
  if [[ $before = --* || $word = --*=* ]] && [ -r "$name" ] && [ ! -d "$name" ]; then
    held=file${#files[@]}
    cat -- "$name" 2> /dev/null > "$room/$held" || fail "$no_room"
    files+=(--data "$held=$room/$held")
    word=${word%"$name"}$held
  fi
  words+=("$word")
  before=$word
done
status=0
(cd "$top/crates/cedar" && rt try --seconds 3600 ${files[@]+"${files[@]}"} -- ${words[@]+"${words[@]}"}) 2> "$room/errors" || status=$?
if ! grep -q '^run=ended ' "$room/errors"; then
  cat "$room/errors" >&2
  fail "rt has not run the program"
fi
# What the program wrote to standard error is between lines of `rt try`.
sed '/^\(interpreter\|checked\|races\|run\|rt\)[:=]/d' "$room/errors" >&2
exit "$status"

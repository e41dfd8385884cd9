# shellcheck shell=bash
# What scripts in bash begin with, and read by `.`: they go on at the top of the repository, with a folder `room` that
# goes away at the end; `kit` is where Rattle's kit is.
set -u
cd "$(dirname "${BASH_SOURCE[0]}")/../.." || exit 2
room=$(mktemp -d) || exit 2
trap 'rm -rf "$room"' EXIT
kit=$(dirname "$(dirname "$(readlink -f "$(command -v rt)")")")

# build [--edit EDIT] (NAME LIBRARY.. | --crate CRATE): builds scripts/programs/NAME over these libraries, or the
# crate's program, as built/start in the room; what the builder says is in room/log
build() {
  local edit=()
  [ "$1" != --edit ] || { edit=("${@:1:2}") && shift 2; }
  rm -rf "$room/built" && mkdir "$room/built"
  [ "$1" = --crate ] || set -- "scripts/programs/$1" "${@:2}"
  scripts/build-unproved "$room/built" "${edit[@]}" "$@" > "$room/log" 2>&1
}

# not_built: shows why, and ends
not_built() {
  cat "$room/log" >&2
  exit 1
}

# library FILE.c: builds room/preloaded.so, for PRELOAD
library() {
  cc -O2 -shared -fPIC -o "$room/preloaded.so" "scripts/programs/$1" -ldl || exit 2
}

# took COMMAND..: its seconds of processor
took() {
  local TIMEFORMAT='%3U %3S'
  { time "$@" > /dev/null; } 2>&1 | awk '{ print $1 + $2 }'
}

# series COUNT COMMAND..: the seconds of processor of each of so many runs, least first
series() {
  local at
  for ((at = 0; at < $1; at++)); do
    took "${@:2}"
  done | sort -n
}

# counted [OPTION OF valgrind ..] -- WORD..: the program that was built, under valgrind, which counts its instructions
counted() {
  local options=()
  while [ "$1" != -- ]; do
    options+=("$1") && shift
  done
  env -i valgrind --tool=callgrind --callgrind-out-file="$room/counted" "${options[@]}" \
    "$kit/toolchain/lib/ld-linux-x86-64.so.2" --inhibit-cache --library-path "$kit/toolchain/lib" \
    ${preloaded:+--preload "$room/preloaded.so"} "$room/built/program" "${@:2}"
}

# instructions WORD..: how many a run of the program takes
instructions() {
  counted -- "$@" > "$room/said" 2>&1 || cat "$room/said" >&2
  awk '/^(summary|totals):/ { made = $2 } END { print made }' "$room/counted"
}

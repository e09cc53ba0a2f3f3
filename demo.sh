#!/usr/bin/env bash
# The front door: takes a sheet as people write it (a record a line, as `Lrole lamp under top` or `Euv`), pads each line to a record of 128 bytes, runs the
# proved session program and shows each line beside its reply, with a refusal's meaning in words.
# usage: ./demo.sh [FILE]   (samples/session.txt if none is given)
# A last line without a newline is handed over as it stands, as a record that was cut off.
# In a sheet, a line `keep` keeps the monitor as an image, shown below the line, and `restore N` goes back to the N-th image kept so far (N from 1). Such a
# sheet goes to examples/snapshots.c, over the proved library.
set -eu
export LC_ALL=C # a record is counted in bytes
sheet=${1:-"$(dirname "$0")/samples/session.txt"}
refuse() {
  echo "$sheet: $1" >&2
  exit 1
}

# A command's output only where it fails.
quietly() {
  "$@" > "$work/said" 2>&1 || { cat "$work/said" >&2; exit 1; }
}

# The session program, proved and built. `rt run` also runs it, where there is no session.rec, so what counts is that the program is there.
built() {
  bin=$PWD/crates/session/out/session
  rm -f "$bin"
  (cd crates/session && rt run) > "$work/said" 2>&1 || true
  [ -x "$bin" ] || { cat "$work/said" >&2; exit 1; }
}

# The session program's replies to standard output.
session() {
  built
  {
    while IFS= read -r line; do printf '%-127s\n' "$line"; done
    printf '%s' "$line"
  } < "$sheet" > "$work/session.rec"
  (cd "$work" && "$bin")
}

# The same for a sheet with images: a line for each line of the sheet, and the records of each image kept.
snapshots() {
  quietly tools/staticlib.sh stand
  command -v cc > /dev/null || { quietly apt-get update && quietly apt-get install -y gcc libc6-dev; }
  cc -std=c99 -O2 -o "$work/snapshots" examples/snapshots.c target/staticlib/libstand.a
  "$work/snapshots" "$sheet"
}

# Each line of the sheet beside its answer, and the image below a line that kept one.
show() {
  awk -v answers="$1" '
    BEGIN {
      meaning["02"] = "the record is not 128 bytes"
      meaning["03"] = "byte 0 is neither L nor E, the newline is missing, or a byte has no class"
      meaning["04"] = "the text is not in the language"
      meaning["05"] = "the name to be declared is taken"
      meaning["06"] = "a role used is not declared"
      meaning["07"] = "the past has more than 63 patterns"
      meaning["08"] = "64 roles or 32 rules are held already"
    }
    function next_answer() {
      getline answer < answers
      sub(/ +$/, "", answer)
      return answer
    }
    {
      a = next_answer()
      if (substr(a, 1, 1) == "R") a = "R " substr(a, 3, 2) "  (" meaning[substr(a, 3, 2)] ")"
      printf "%-100s %s\n", $0, a
      if (sub(/^records kept: /, "", a)) for (; a > 0; a--) print "    " next_answer()
    }' "$sheet"
}

[ -e "$sheet" ] || refuse "there is no such file"
[ -f "$sheet" ] && [ -r "$sheet" ] || refuse "this is no file that can be read"
if grep -q $'\r' "$sheet"; then refuse "a line ends in a carriage return, as editors on Windows write them: save it with newlines alone"; fi
if grep -qE '^.{128}' "$sheet"; then refuse "a line has more than 127 bytes"; fi
sheet=$(realpath "$sheet")
cd "$(dirname "$0")"
work=$(mktemp -d)
trap 'rm -rf "$work"' EXIT
if grep -qE '^(keep|restore [0-9]+)$' "$sheet"; then run=snapshots; else run=session; fi
"$run" > "$work/answers"
show "$work/answers"

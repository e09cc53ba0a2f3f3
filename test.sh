#!/usr/bin/env bash
# All tests. First every crate is proved, every must-fail edit refused, every program run and compared with its stored output. Then a plain book written from documents 01 and 02 alone
# against the stored sessions and images and, by random sessions, call by call, in batches, with images kept and restored and by a host's rounds, against the monitor; random pasts against a
# plain matcher; the C programs. The last line is that of the proofs again.
set -eu -o pipefail
cd "$(dirname "$0")"
out=$(mktemp -d)
trap 'rm -rf "$out"' EXIT

# An edit that cannot be applied or read is bad: it shows nothing, so it fails the tests as one that is proved does.
rt ci 2>&1 | tee "$out/ci"
if grep -qE '^rt: ok.*, [0-9]+ bad' "$out/ci"; then
  echo "a must-fail edit is bad" >&2
  exit 1
fi

tests/demo/messages.sh

# Rust and C programs stand in no crate.
command -v rustc > /dev/null || { apt-get update && apt-get install -y rustc; }
rustc --edition 2021 -O -o "$out/book" tests/book/main.rs
"$out/book" crates/test_sessions/data tests/images

# They call the proved code by its static libraries.
tools/staticlib.sh test_probe
rustc --edition 2021 -O -L target/staticlib -o "$out/pasts" tests/pasts/main.rs
"$out/pasts"
tools/staticlib.sh stand
command -v cc > /dev/null || { apt-get update && apt-get install -y gcc libc6-dev; }
command -v c++ > /dev/null || { apt-get update && apt-get install -y g++; }
cc -std=c99 -Wall -Wextra -Werror -O2 -o "$out/header" tests/header/main.c target/staticlib/libstand.a
"$out/header" crates/session/data/session.rec crates/session/stdout
c++ -x c++ -std=c++11 -Wall -Wextra -Werror -O2 -o "$out/header_as_cpp" tests/header/main.c -x none target/staticlib/libstand.a
"$out/header_as_cpp" crates/session/data/session.rec crates/session/stdout
cc -std=c99 -Wall -Wextra -Werror -O2 -o "$out/batches" examples/batches.c target/staticlib/libstand.a
cc -std=c99 -Wall -Wextra -Werror -O2 -o "$out/snapshots" examples/snapshots.c target/staticlib/libstand.a
cc -std=c99 -Wall -Wextra -Werror -O2 -o "$out/host" examples/host.c target/staticlib/libstand.a
examples/test.sh "$out/batches" "$out/snapshots" "$out/host"
tests/demo/snapshots.sh
rustc --edition 2021 -O -L target/staticlib -o "$out/calls" tests/calls/main.rs
"$out/calls" stored crates/test_sessions/data
"$out/calls" images tests/images

# Random sessions; beside them, on the other core, the same with fewer calls and every access to memory watched.
command -v valgrind > /dev/null || { apt-get update && apt-get install -y valgrind; }
valgrind --error-exitcode=1 -q "$out/calls" 6000 > "$out/watched" 2>&1 &
watched=$!
"$out/calls"
wait "$watched" || { cat "$out/watched"; exit 1; }
cat "$out/watched"
valgrind --error-exitcode=1 -q --leak-check=full "$out/batches" crates/test_sessions/data/short-last-record.rec > /dev/null
valgrind --error-exitcode=1 -q --leak-check=full "$out/snapshots" samples/snapshots.txt > /dev/null
head -c 512 crates/session/data/session.rec > "$out/half-1"
tail -c +513 crates/session/data/session.rec > "$out/half-2"
for half in "$out/half-1" "$out/half-2"; do
  valgrind --error-exitcode=1 -q --leak-check=full "$out/host" "$out/image" "$half"
done > "$out/replies"
cmp "$out/replies" crates/session/stdout

tail -n 1 "$out/ci"

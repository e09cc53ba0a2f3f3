#!/usr/bin/env bash
# The cost of an operation, beside two monitors in Rust in the same run (docs/PERFORMANCE.md). No test depends on it.
# `./bench.sh run [MONITOR] SHEET COUNT` answers COUNT acts on a sheet once (bare, light, held, sent, heavy, long, worst, nested, full), under the command in
# $UNDER, for a profiler. With the monitor named (proved, tables, same), `batch` or `image` may stand after the count: so many batches of acts, or the sheet's
# image restored and kept so many times.
set -eu
cd "$(dirname "$0")"
command -v rustc > /dev/null || { apt-get update && apt-get install -y rustc; }
tools/staticlib.sh stand > /dev/null
out=$(mktemp -d)
trap 'rm -rf "$out"' EXIT
# For the processor that `rt` compiles the library for, so that neither side has instructions that the other has not.
rustc --edition 2021 -O -C target-cpu=x86-64-v2 -L target/staticlib -o "$out/monitor" bench/monitor/main.rs
if [ $# -eq 0 ]; then
    "$out/monitor" crates/test_sessions/data
else
    ${UNDER:-} "$out/monitor" "$@"
fi

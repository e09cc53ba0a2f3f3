#!/usr/bin/env bash
# How the front door shows images kept and restored: its sample sheets beside the stored answers. It builds the library, proving it first where needed.
set -eu -o pipefail
cd "$(dirname "$0")/../.."
./demo.sh samples/snapshots.txt | diff tests/demo/snapshots.out -
./demo.sh samples/greek.txt | diff tests/demo/greek.out -
echo "demo.sh shows images kept and restored in two sheets"

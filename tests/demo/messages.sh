#!/usr/bin/env bash
# What the front door says of a sheet that it does not take: each refusal has its own words, on standard error, and exit status 1.
set -eu
cd "$(dirname "$0")/../.."
work=$(mktemp -d)
trap 'rm -rf "$work"' EXIT

# says FILE WORDS: the front door refuses FILE with these words.
says() {
  if said=$(./demo.sh "$1" 2>&1 > /dev/null); then
    echo "demo.sh took $1" >&2
    exit 1
  fi
  case $said in
    *"$2"*) ;;
    *)
      echo "demo.sh said of $1: $said" >&2
      exit 1
      ;;
  esac
}

says "$work/none" "there is no such file"
says "$work" "no file that can be read"
printf 'Lrole uv under top\r\nEuv\r\n' > "$work/windows"
says "$work/windows" "carriage return"
printf '%0128d\n' 0 > "$work/long"
says "$work/long" "more than 127 bytes"
echo "demo.sh refuses four sheets, each in its own words"

#!/usr/bin/env bash
# The examples as compiled: their answers to stored sessions and to small sheets, sessions broken off and taken up again, and their words where they cannot go
# on, on standard error with exit status 1.
# usage: examples/test.sh BATCHES SNAPSHOTS HOST
set -eu -o pipefail
batches=$1
snapshots=$2
host=$3
cd "$(dirname "$0")/.."
work=$(mktemp -d)
trap 'rm -rf "$work"' EXIT
image=$work/image
stored=crates/test_sessions/data
sample=crates/session/data/session.rec

# answers PROGRAM FILE ANSWERS: the answers are those stored.
answers() {
  "$1" "$2" > "$work/answers"
  cmp "$work/answers" "$3"
}

# says OUTPUT WORDS PROGRAM ARGUMENT...: the program ends with 1 and these words.
says() {
  output=$1
  words=$2
  shift 2
  status=0
  said=$("$@" 2>&1 > "$output") || status=$?
  if [ "$status" != 1 ] || [ "$said" != "$words" ]; then
    echo "$* > $output: status $status, and it said: $said" >&2
    exit 1
  fi
}

# shows SHEET ANSWERS: snapshots gives these answers, spaces at the ends of lines aside.
shows() {
  printf "%b" "$1" > "$work/sheet"
  "$snapshots" "$work/sheet" | sed 's/ *$//' > "$work/shown"
  printf "%b" "$2" | diff - "$work/shown"
}

# part SESSION FROM TO: the records of a session from one number, up to another.
part() {
  dd if="$1" bs=128 skip="$2" count=$(($3 - $2)) status=none
}

# length FILE: how many records a file has.
length() {
  echo $(($(stat -c %s "$1") / 128))
}

# kept_after SESSION: the image file is the one that keeping writes after the whole session.
kept_after() {
  { cat "$1"; echo keep; } > "$work/sheet"
  "$snapshots" "$work/sheet" | tail -c +$((50 * $(length "$1") + 1)) > "$work/kept"
  { echo "records kept: $(length "$image")"; cat "$image"; } | cmp - "$work/kept"
}

# in_parts SESSION ANSWERS CUT...: host, run for each part between two cuts with nothing but the image file kept, gives the answers and the image of the whole.
in_parts() {
  session=$1
  expected=$2
  shift 2
  rm -f "$image"
  from=0
  for to in "$@" "$(length "$session")"; do
    part "$session" "$from" "$to" > "$work/part.rec"
    "$host" "$image" "$work/part.rec"
    from=$to
  done > "$work/answers"
  cmp "$work/answers" "$expected"
  kept_after "$session"
}

# eight_digits IMAGE: of an image whose marks are below 32, the records of marks are rewritten with eight digits.
eight_digits() {
  sed -i 's/^\(M.\{9\}\)0\{8\}\([0-9A-F]\{8\}\)/\1\2        /' "$1"
}

# host_says IMAGE SESSION OUTPUT WORDS: host ends with 1 and these words, and the image file stays.
host_says() {
  cp "$1" "$work/before"
  says "$3" "host: $4" "$host" "$1" "$2"
  cmp "$1" "$work/before"
}

# Sessions without images. A session file is a sheet too, where each record ends in its only newline.
for program in "$batches" "$snapshots"; do
  answers "$program" "$sample" crates/session/stdout
  # Several batches, the last of them smaller; none; a single call after a batch.
  for name in long-00 long-01 empty short-last-record last-1-byte 35-patterns 55-patterns stars-above-31; do
    answers "$program" "$stored/$name.rec" "$stored/$name.out"
  done
done

# The image of a fresh monitor has no records; back and forth between images; what was kept before going back can still be gone to.
shows 'keep\nLrole uv under top\nkeep\nrestore 1\nEuv\nrestore 2\nEuv\n' \
  'records kept: 0\nD 00 uv\nrecords kept: 1\nLrole uv under top\nrestored\nR 06 -\nrestored\nC 00 -        uv\n'
# Lines that only look like operations are records; a last line without a newline is an operation all the same.
shows ' keep\nkeeps\nrestore\nrestore x\nrestore 1 \nkeep\nrestore 01' \
  'R 03 -\nR 03 -\nR 03 -\nR 03 -\nR 03 -\nrecords kept: 0\nrestored\n'

# Host: the sample whole, cut at each record, and run record by record; long sessions cut before, at and after the end of a batch.
in_parts "$sample" crates/session/stdout
for cut in 1 2 3 4 5 6 7; do in_parts "$sample" crates/session/stdout "$cut"; done
in_parts "$sample" crates/session/stdout 1 2 3 4 5 6 7
for name in long-00 long-01; do
  for cut in 1 511 512 513 1000 1024; do in_parts "$stored/$name.rec" "$stored/$name.out" "$cut"; done
  in_parts "$stored/$name.rec" "$stored/$name.out" 1 2 513 1025 1999
done
# Record by record, so that every mark that these sessions reach, also from 32 on, goes through the image file.
for name in 35-patterns 55-patterns stars-above-31; do
  in_parts "$stored/$name.rec" "$stored/$name.out" $(seq 1 $(($(length "$stored/$name.rec") - 1)))
done

# An image file whose marks have eight digits, as they had once, is taken up; the image is rewritten with sixteen.
for cut in 4 5 6 7; do
  rm -f "$image"
  part "$sample" 0 "$cut" > "$work/part.rec"
  "$host" "$image" "$work/part.rec" > "$work/answers"
  cp "$image" "$work/before"
  eight_digits "$image"
  if [ "$(stat -c %s "$image")" != $((5 * 128)) ] || cmp -s "$image" "$work/before"; then
    echo "the image file was not rewritten with eight digits" >&2
    exit 1
  fi
  "$host" "$image" "$stored/empty.rec"
  cmp "$image" "$work/before"
  eight_digits "$image"
  part "$sample" "$cut" 8 > "$work/part.rec"
  "$host" "$image" "$work/part.rec" >> "$work/answers"
  cmp "$work/answers" crates/session/stdout
  kept_after "$sample"
done

# Broken off from without: the file for the replies has room for those of one batch, so the system ends host before the second batch is in the image. The image
# is that after the first, and the rest is run from there.
rm "$image"
status=0
{ (ulimit -c 0 && ulimit -f 25 && exec "$host" "$image" "$stored/long-00.rec" > "$work/answers") || status=$?; } 2> "$work/said"
if [ "$status" -le 128 ] || [ "$(stat -c %s "$work/answers")" != $((50 * 512)) ]; then
  echo "host was not broken off after the first batch: status $status" >&2
  exit 1
fi
part "$stored/long-00.rec" 0 512 > "$work/part.rec"
kept_after "$work/part.rec"
part "$stored/long-00.rec" 512 2000 > "$work/part.rec"
"$host" "$image" "$work/part.rec" >> "$work/answers"
cmp "$work/answers" "$stored/long-00.out"

# No records: no replies, and the image is as it was; or that of a fresh monitor, which has no records.
cp "$image" "$work/before"
"$host" "$image" "$stored/empty.rec" | cmp - "$stored/empty.out"
cmp "$image" "$work/before"
rm "$image"
"$host" "$image" "$stored/empty.rec" | cmp - "$stored/empty.out"
cmp "$image" /dev/null

# A last record that is cut off: the replies to those before it are written, and the image is that after them.
for name in short-last-record last-1-byte last-127-bytes; do
  rm "$image"
  says "$work/answers" "host: refused by 11: $stored/$name.rec ends in a record that is cut off; those before it were run" \
    "$host" "$image" "$stored/$name.rec"
  head -c -50 "$stored/$name.out" | cmp - "$work/answers"
  part "$stored/$name.rec" 0 "$(length "$stored/$name.rec")" > "$work/part.rec"
  kept_after "$work/part.rec"
done

# An image that is refused, in whole records or not, is told whatever the session holds, and nothing is answered.
part "$sample" 0 4 > "$work/lines"     # a rule, and no record of its marks
head -c 16384 /dev/zero > "$work/many" # 128 records
head -c 127 "$sample" > "$work/short"
for session in "$sample" "$stored/empty.rec" "$stored/last-1-byte.rec"; do
  host_says "$work/lines" "$session" "$work/answers" "refused by 12: $work/lines holds no image that the monitor accepts"
  cmp "$work/answers" /dev/null
  host_says "$work/many" "$session" "$work/answers" "refused by 13: $work/many holds more than 127 records"
  cmp "$work/answers" /dev/null
  host_says "$work/short" "$session" "$work/answers" "$work/short is no image: it is not whole records of 128 bytes"
  cmp "$work/answers" /dev/null
done
printf x >> "$work/many"
host_says "$work/many" "$sample" "$work/answers" "$work/many is no image: it is not whole records of 128 bytes"

# Files that cannot be read or written. A batch whose replies are not out is not in the image.
part "$sample" 0 6 > "$work/part.rec"
rm "$image"
"$host" "$image" "$work/part.rec" > "$work/answers"
part "$sample" 6 8 > "$work/part.rec"
host_says "$image" "$work/part.rec" /dev/full "cannot write the replies"
host_says "$image" "$work/none" "$work/said" "cannot open $work/none"
host_says "$image" "$work" "$work/said" "cannot read $work"
mkdir "$image.new"
host_says "$image" "$work/part.rec" "$work/said" "cannot write $image.new"
rmdir "$image.new"
"$host" "$image" "$work/part.rec" >> "$work/answers"
cmp "$work/answers" crates/session/stdout
says "$work/answers" "host: cannot write $work/none/image.new" "$host" "$work/none/image" "$sample"
cmp "$work/answers" /dev/null
says "$work/answers" "host: cannot read $work" "$host" "$work" "$sample"
says "$work/answers" "host: cannot open $sample/image" "$host" "$sample/image" "$sample"
says "$work/answers" "host: the name of the image file is too long" "$host" "$(printf '%05000d' 0)" "$sample"
says "$work/answers" "host: give an image file and a session file" "$host" "$image"

says /dev/null "batches: cannot open $work/none" "$batches" "$work/none"
says /dev/null "batches: cannot read $work" "$batches" "$work"
says /dev/full "batches: cannot write the replies" "$batches" "$sample"
says /dev/full "snapshots: cannot write the answers" "$snapshots" samples/snapshots.txt
for number in 0 2 18446744073709551617; do
  printf 'keep\nrestore 1\nrestore %s\nkeep\n' "$number" > "$work/sheet"
  says /dev/null "snapshots: line 3: no image $number was kept before it" "$snapshots" "$work/sheet"
done
printf 'keep\n%0128d\n' 0 > "$work/sheet"
says /dev/null "snapshots: line 2 has more than 127 bytes" "$snapshots" "$work/sheet"
echo "batches and snapshots answer nine sessions as stored, and snapshots keeps and restores in two sheets; host answers six sessions as stored, whole or" \
  "broken off and taken up again, and takes up images with eight digits; refusals and errors are said in words"

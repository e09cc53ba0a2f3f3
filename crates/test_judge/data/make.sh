#!/bin/sh
# Makes cases.rec and the stored output ../stdout, from document 01 and the limit of C-15 alone: the answers below are written by hand. Run it in this folder.
set -eu
LC_ALL=C
export LC_ALL
list=$(mktemp)
trap 'rm -f "$list"' EXIT
: >cases.rec
: >../stdout

# A record: byte 0 and the text, padded with spaces to 127 bytes, and the newline; and one for each line of the input.
record() { printf '%-127s\n' "$1"; }
records() { while IFS= read -r line; do record "$line"; done; }

# Acts, given as texts.
acts() { for text; do record "E$text"; done; }

# n times the same act.
repeated() { awk -v n="$1" -v text="E$2" 'BEGIN { for (i = 0; i < n; i++) printf "%-127s\n", text }'; }

# n times the same text, with no newline.
repeat() { awk -v n="$1" -v text="$2" 'BEGIN { for (i = 0; i < n; i++) printf "%s", text }'; }

# Handed to the monitor.
say() { records >>cases.rec; }

# A case: the rule's number, the answer, the case in words; the list's bytes are the input.
ask() {
    cat >"$list"
    printf 'J%020d %05d %-4s %-94s\n' "$1" "$(wc -c <"$list")" "$2" "$3" >>cases.rec
    cat "$list" >>cases.rec
    printf 'ok %-4s %-94s\n' "$2" "$3" >>../stdout
}

# "no rule of that number (0 is the first)", "0 on a fresh monitor"; 9 before 10 and before the records
ask 0 'R 09' 'a fresh monitor' </dev/null
printf '%129s' '' | ask 0 'R 09' 'a fresh monitor: 129 bytes'
record 'Luv' | ask 0 'R 09' 'a fresh monitor: a line'

# "A session printed": the roles. Then a rule for each past of "Past cases, proved together". All pass, so that every act is committed.
say <<'END'
Lrole lamp under top
Lrole uv under lamp
Lrole expose under top
Lrule a: (); any; pass
Lrule b: any*; any; pass
Lrule c: <+lamp>; any; pass
Lrule d: <lamp>; any; pass
Lrule e: (<uv><lamp>)*; any; pass
Lrule f: [not <uv>]*<uv>any*; any; pass
Lrule g: <uv>; any; pass
Lrule h: <uv *>; any; pass
Lrule i: [not any]; any; pass
Lrule j: any; any; pass
Lrule k: (()+<uv>)*<lamp>; any; pass
END

# "Past cases, proved together": the fourteen
fourteen() {
    acts | ask 0 yes "$1(): empty"
    acts uv | ask 0 no "$1(): uv"
    acts | ask 1 yes "$1any*: empty"
    acts uv | ask 2 yes "$1<+lamp>: uv"
    acts lamp | ask 2 yes "$1<+lamp>: lamp"
    acts uv | ask 3 no "$1<lamp>: uv"
    acts uv lamp uv | ask 4 no "$1(<uv><lamp>)*: uv,lamp,uv"
    acts uv lamp uv lamp | ask 4 yes "$1(<uv><lamp>)*: uv,lamp,uv,lamp"
    acts expose uv lamp | ask 5 yes "$1[not <uv>]*<uv>any*: expose,uv,lamp"
    acts 'uv lamp' | ask 6 no "$1<uv>: the two-role act uv lamp"
    acts 'uv lamp' | ask 7 yes "$1<uv *>: the two-role act uv lamp"
    acts uv | ask 8 no "$1[not any]: uv"
    acts '' | ask 9 yes "$1any: the act of no roles"
    acts lamp | ask 10 yes "$1(()+<uv>)*<lamp>: lamp"
}

# Refusals, and lists near them
refusals() {
    # 9, before 10 and before the records
    acts | ask 11 'R 09' "$1rule 11 of 11: empty"
    acts uv | ask 32 'R 09' "$1rule 32: uv"
    acts uv | ask 4294967296 'R 09' "$1rule 4294967296: uv"
    acts uv | ask 9223372036854775807 'R 09' "$1rule 9223372036854775807: uv"
    printf '%129s' '' | ask 11 'R 09' "$1rule 11 of 11: 129 bytes"
    record 'Luv' | ask 11 'R 09' "$1rule 11 of 11: a line"
    # 10, before the records
    printf '%129s' '' | ask 1 'R 10' "${1}129 bytes"
    printf 'E' | ask 1 'R 10' "${1}1 byte"
    printf '%-127s' 'Euv' | ask 1 'R 10' "${1}127 bytes"
    { record 'Luv' && printf 'E'; } | ask 1 'R 10' "$1a line and 1 byte"
    # 3
    record 'Luv' | ask 1 'R 03' "$1byte 0 is L"
    record 'Quv' | ask 1 'R 03' "$1byte 0 is Q"
    record 'euv' | ask 1 'R 03' "$1byte 0 is e"
    printf '%-127sx' 'Euv' | ask 1 'R 03' "$1byte 127 is x"
    record "$(printf 'Euv\tlamp')" | ask 1 'R 03' "$1a tab in the text"
    printf '%-126s\177\n' 'Euv' | ask 1 'R 03' "$1byte 126 is of class 0"
    # 4
    acts ' uv;' | ask 1 'R 04' "$1E uv;"
    acts 'uv uv uv uv uv' | ask 1 'R 04' "$1five names"
    acts 'any' | ask 1 'R 04' "$1a reserved word"
    acts 'exposures' | ask 1 'R 04' "$1a word of nine bytes"
    # 6
    acts ' mauve' | ask 1 'R 06' "$1E mauve"
    acts 'a' | ask 1 'R 06' "$1the name of a rule"
    acts 'uv lamp expose mauve' | ask 1 'R 06' "$1mauve as the fourth role"
    # 3, 4, 6 in this order in a record; the first record that is refused, whatever stands after it and whether or not the past can still match
    record "$(printf 'Emauve;\t')" | ask 1 'R 03' "${1}3 before 4 and 6"
    acts 'mauve;' | ask 1 'R 04' "${1}4 before 6"
    { acts mauve && record 'Luv'; } | ask 1 'R 06' "$1the first record has 6, the second 3"
    { acts 'uv;' && record 'Luv'; } | ask 1 'R 04' "$1the first record has 4, the second 3"
    acts mauve 'uv;' | ask 1 'R 06' "$1the first record has 6, the second 4"
    acts uv lamp mauve | ask 1 'R 06' "$1the third record has 6"
    acts uv mauve | ask 8 'R 06' "$1[not any]: uv,mauve"
    # no refusal
    acts top | ask 1 yes "$1any*: top"
    acts 'uv lamp expose top' | ask 1 yes "$1any*: an act of four roles"
    acts ' uv  lamp ' | ask 7 yes "$1<uv *>: spaces at either end and between"
    acts | ask 9 no "$1any: empty"
    acts | ask 6 no "$1<uv>: empty"
    acts | ask 4 yes "$1(<uv><lamp>)*: empty"
    acts uv uv lamp | ask 10 yes "$1(()+<uv>)*<lamp>: uv,uv,lamp"
    acts lamp uv | ask 10 no "$1(()+<uv>)*<lamp>: lamp,uv"
}

fourteen ''
refusals ''

# "over 256 of them"
repeated 256 uv | ask 1 yes 'any*: 256 acts'
repeated 257 uv | ask 1 'R 10' '257 acts'
{ repeated 128 uv && repeated 128 lamp; } | ask 4 no '(<uv><lamp>)*: 128 times uv, then 128 times lamp'
{ repeated 255 uv && record 'Luv'; } | ask 1 'R 03' 'the last of 256 records is a line'
{ record 'Luv' && repeated 256 uv; } | ask 1 'R 10' 'a line and 256 acts'

# Whatever a rule has seen: the same answers after acts
say <<'END'
Euv
Elamp
Euv lamp
Eexpose
E
END
fourteen 'after acts, '
refusals 'after acts, '

# The roles held when the judge is asked are those that count.
acts violet | ask 2 'R 06' '<+lamp>: violet, not declared'
say <<'END'
Lrole violet under uv
END
acts violet | ask 2 yes '<+lamp>: violet, declared under uv'
acts violet | ask 3 no '<lamp>: violet, declared under uv'

# C-15: the most patterns that a line holds, 55; a past of 35, of them 18 and 35 <uv>; and one whose 34 end in (<uv><lamp>)*<expose>, all within a star
{
    echo "Lrule l:$(repeat 55 '<>');<>;pass"
    echo "Lrule m:$(repeat 17 '<>')<uv>$(repeat 16 '<>')<uv>*;any;pass"
    echo "Lrule n:($(repeat 31 '<>')+(<uv><lamp>)*<expose>)*;any;pass"
} | say
repeated 55 '' | ask 11 yes '55 patterns <>: 55 acts of no roles'
repeated 54 '' | ask 11 no '55 patterns <>: 54 acts of no roles'
repeated 56 '' | ask 11 no '55 patterns <>: 56 acts of no roles'
acts | ask 11 no '55 patterns <>: empty'
{ repeated 54 '' && acts uv; } | ask 11 no '55 patterns <>: 54 acts of no roles, then uv'
{ acts uv && repeated 54 ''; } | ask 11 no '55 patterns <>: uv, then 54 acts of no roles'
{ repeated 55 '' && record 'Luv'; } | ask 11 'R 03' '55 patterns <>: 55 acts of no roles, then a line'
first() { repeated 17 '' && acts uv && repeated "$1" ''; }
first 16 | ask 12 yes '35 patterns, the last a star: the first 34'
{ first 16 && acts uv; } | ask 12 yes '35 patterns, the last a star: each once'
{ first 16 && repeated 100 uv; } | ask 12 yes '35 patterns, the last a star: the last a hundred times'
{ first 15 && acts uv; } | ask 12 no '35 patterns, the last a star: all but the 34th'
{ first 16 && acts uv lamp; } | ask 12 no '35 patterns, the last a star: lamp after each once'
{ first 16 && acts uv '' uv; } | ask 12 no '35 patterns, the last a star: an act of no roles among the last'
acts | ask 13 yes '34 patterns in a star: empty'
acts uv lamp expose uv lamp uv lamp expose | ask 13 yes '34 patterns in a star: two rounds by the second side'
acts uv lamp uv expose | ask 13 no '34 patterns in a star: uv, lamp, uv, expose'
{ acts expose && repeated 31 '' && acts uv lamp expose; } | ask 13 yes '34 patterns in a star: a round by the first side between two by the second'
{ acts expose && repeated 30 '' && acts uv lamp expose; } | ask 13 no '34 patterns in a star: the same with one act of no roles less'
{ repeated 31 '' && acts uv lamp; } | ask 13 no '34 patterns in a star: the last round not ended'

# 32 rules: 31 is the last one's number.
awk 'BEGIN { for (i = 15; i <= 32; i++) printf "Lrule r%d: <expose>; any; pass\n", i }' | say
acts expose | ask 31 yes 'rule 31 of 32, <expose>: expose'
acts uv | ask 31 no 'rule 31 of 32, <expose>: uv'
acts expose | ask 32 'R 09' 'rule 32 of 32: expose'

echo "$(awk 'END { print NR }' ../stdout) cases ok, 0 not" >>../stdout

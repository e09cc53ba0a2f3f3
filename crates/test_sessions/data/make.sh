#!/bin/sh
# Makes the sessions of this folder, the list of their names and the stored output of the program. Run it in this folder with the folder of
# the vectors as its argument:  sh make.sh /path/to/vectors
#
# NAME.rec has the records and NAME.out the replies. Those of the vectors are copied as they are, in the order of their INDEX.txt, with the long
# ones after them; only the replies that request C-15 changes are written over, as changed.txt lists them. The others are made here from documents
# 01 and 02. names.txt has a name to a line. ../stdout has the line that the program must print for each name, with the number of replies counted
# from the sizes of the files, and the count at the end.
set -eu
vectors=$1

# Records from lines of text: byte 0 and the text, padded with spaces to 127 bytes, and the newline.
records() { while IFS= read -r line; do printf '%-127s\n' "$line"; done; }

# Replies from lines of text: padded with spaces to 49 bytes, and the newline.
replies() { while IFS= read -r line; do printf '%-49s\n' "$line"; done; }

# n lines, of a text with the numbers 1 to n in it.
numbered() { awk -v n="$1" -v form="$2" 'BEGIN { for (i = 1; i <= n; i++) printf form "\n", i }'; }

# n times the same text, with no newline.
repeat() { awk -v n="$1" -v text="$2" 'BEGIN { for (i = 0; i < n; i++) printf "%s", text }'; }

# Writes over a reply of a vector: the session, the number of the reply from 1 on, what the vector has there, what stands there now. It stops where
# the vector has something else.
change() {
    at=$((50 * ($2 - 1)))
    if [ "$(tail -c +$((at + 1)) "$1.out" | head -c 49)" != "$(printf '%-49s' "$3")" ]; then
        echo "make.sh: reply $2 of $1 is not $3" >&2
        exit 1
    fi
    printf '%-49s' "$4" | dd of="$1.out" bs=1 seek="$at" conv=notrunc status=none
}

# The vectors.
{
    awk 'NF > 2 && $3 == "records" { print $1 }' "$vectors/INDEX.txt"
    ls "$vectors" | sed -n 's/^\(long-.*\)\.rec$/\1/p'
} | awk '!seen[$0]++' >names.txt
while IFS= read -r name; do
    cp "$vectors/$name.rec" "$vectors/$name.out" .
done <names.txt
chmod u+w ./*.rec ./*.out

# The vectors were made before C-15, when a past of more than 31 patterns was refused by 7.
grep -v '^#' changed.txt | while IFS=: read -r name number was now; do change "$name" "$number" "$was" "$now"; done

# No record, no reply.
: >empty.rec
: >empty.out

# "a short last record gets R 02": one of 1 byte, and one of 127.
{ records <<'END'; printf 'E'; } >last-1-byte.rec
Lrole lamp under top
END
{ records <<'END'; printf '%-127s' 'Elamp'; } >last-127-bytes.rec
Lrole lamp under top
END
replies >last-1-byte.out <<'END'
D 00 lamp
R 02 -
END
cp last-1-byte.out last-127-bytes.out

# The examples of "Refusals, in the order checked", rows 3 to 8. No record meets row 7 since C-15: the line of its example is taken. Before the 65th
# role, 63 roles fill the places that top leaves.
{
    records <<'END'
Q
E uv;
Lrole top under top
E mauve
END
    echo "Lrule a:$(repeat 32 '<>');any;hold" | records
    numbered 64 'Lrole r%d under top' | records
} >refusal-examples.rec
{
    replies <<'END'
R 03 -
R 04 -
R 05 -
R 06 -
D 00 a
END
    numbered 63 'D 00 r%d' | replies
    printf 'R 08 -\n' | replies
} >refusal-examples.out

# Names of eight bytes and of nine, a hyphen in a name, four names that fill the reply, an undeclared role inside not, another last byte.
{
    records <<'END'
Lrole abcdefgh under top
Lrole abcdefghi under top
Lrole a-b under abcdefgh
Lrole -ab under top
Lrole ijklmnop under top
Lrole qrstuvwx under top
Lrole yzabcdef under top
Eabcdefgh ijklmnop qrstuvwx yzabcdef
Ea-b
Lrule r: [not <zebra>]; any; hold
END
    printf '%-127sx' 'Ea-b'
} >names-and-columns.rec
replies >names-and-columns.out <<'END'
D 00 abcdefgh
R 04 -
D 00 a-b
R 04 -
D 00 ijklmnop
D 00 qrstuvwx
D 00 yzabcdef
C 00 -        abcdefgh ijklmnop qrstuvwx yzabcdef
C 00 -        a-b
R 06 -
R 03 -
END

# A hold that would be the 65th response is too long; earlier it holds. Each hop works twelve passes and an anew.
{
    records <<'END'
Lrole a under top
Lrole b under top
Lrole c under top
Lrole d under top
Lrole e under top
Lrule h: any*; any; hold
Lrule n1: any*; <a>; anew <b>
Lrule n2: any*; <b>; anew <c>
Lrule n3: any*; <c>; anew <d>
Lrule n4: any*; <d>; anew <e>
END
    numbered 12 'Lrule p%d: any*; any; pass' | records
    records <<'END'
Ea
Eb
Ee
END
} >hold-as-65th.rec
{
    replies <<'END'
D 00 a
D 00 b
D 00 c
D 00 d
D 00 e
D 00 h
D 00 n1
D 00 n2
D 00 n3
D 00 n4
END
    numbered 12 'D 00 p%d' | replies
    replies <<'END'
T 64 h
H 52 h
H 13 h
END
} >hold-as-65th.out

# C-15: "A Greek collection's sheet needs 35 patterns in one past". Seven fragments, for each lamp, filter, exposure, uv, exposure; then `seven` holds an
# exposure. `uv34` has its last two the other way round, and the 34th act is uv, so it never matches. The acts are the 35 and then: the exposure held twice, lamp, which both are
# stuck after, and an exposure.
{
    records <<'END'
Lrole l under top
Lrole u under l
Lrole f under top
Lrole e under top
END
    echo "Lrule seven:$(repeat 7 '<l><f><e><u><e>');<e>;hold" | records
    echo "Lrule uv34:$(repeat 6 '<l><f><e><u><e>')<l><f><e><e><u>;<e>;hold" | records
    repeat 7 'El Ef Ee Eu Ee ' | tr ' ' '\n' | records
    printf '%s\n' Ee Ee El Ee | records
} >35-patterns.rec
{
    printf 'D 00 %s\n' l u f e seven uv34 | replies
    repeat 7 'l f e u e ' | tr ' ' '\n' | sed 's/^/C 00 -        /' | replies
    replies <<'END'
H 01 seven
H 01 seven
C 00 -        l
C 00 -        e
END
} >35-patterns.out

# C-15: the most patterns that a line holds, 55. The text of `a` has 125 bytes, that of `b` 126. Each act of no roles takes both one mark further; after
# 54 of them neither matches, after 55 both: `b` passes every act and `a` holds one of no roles. lamp is committed, and both are stuck.
{
    echo 'Lrole lamp under top' | records
    echo "Lrule a:$(repeat 55 '<>');<>;hold" | records
    echo "Lrule b:$(repeat 55 '<>');any;pass" | records
    repeat 57 'E ' | tr ' ' '\n' | records
    printf '%s\n' Elamp E | records
} >55-patterns.rec
{
    printf 'D 00 %s\n' lamp a b | replies
    repeat 55 'C 00 -:' | tr ':' '\n' | replies
    replies <<'END'
H 02 a
H 02 a
C 01 -        lamp
C 00 -
END
} >55-patterns.out

# C-15: alternatives and stars over marks above 31. Both rules pass every act, so a reply's count says how many of them matched before the act.
#
# Of `s` the patterns 1 to 31 are <>, then stand 32 <a>, 33 <b>, 34 <c>, 35 <a>, 36 <d>. Its past matches while mark 0, 31, 34, 35 or 36 is set. The marks
# after its acts: a: 32, 35; b: 33; c: 34; a: 32, 35; a: 32, 35; d: 36; a: 32, 35; b: 33; a: 32; b: 33; c: 34; 31 acts of no roles: 1 to 31, one each;
# c: 34; b: none, so it is stuck.
#
# Of `t` the patterns 1 to 33 are <>, and 34 is <a>. The marks after its acts: a: 34; no roles: 1 to 33; a: 34; b: none.
{
    printf 'Lrole %s under top\n' a b c d | records
    echo "Lrule s:($(repeat 31 '<>')+(<a><b>)*<c>+<a>*<d>*)*;any;pass" | records
    printf 'E%s\n' a b c a a d a b a b c | records
    repeat 31 'E ' | tr ' ' '\n' | records
    printf 'E%s\n' c b a '' | records
    echo "Lrule t:($(repeat 33 '<>+')<a>)*;any;pass" | records
    printf 'E%s\n' a '' a b a '' | records
} >stars-above-31.rec
{
    printf 'D 00 %s\n' a b c d s | replies
    replies <<'END'
C 01 -        a
C 01 -        b
C 00 -        c
C 01 -        a
C 01 -        a
C 01 -        d
C 01 -        a
C 01 -        b
C 00 -        a
C 00 -        b
C 00 -        c
C 01 -
END
    repeat 30 'C 00 -:' | tr ':' '\n' | replies
    replies <<'END'
C 01 -        c
C 01 -        b
C 00 -        a
C 00 -
D 00 t
C 01 -        a
C 01 -
C 01 -        a
C 01 -        b
C 00 -        a
C 00 -
END
} >stars-above-31.out

printf '%s\n' empty last-1-byte last-127-bytes refusal-examples names-and-columns hold-as-65th 35-patterns 55-patterns stars-above-31 >>names.txt

# What the program must print.
{
    while IFS= read -r name; do
        echo "$name ok $((($(wc -c <"$name.rec") + 127) / 128))"
    done <names.txt
    echo "$(awk 'END { print NR }' names.txt) sessions ok, 0 not"
} >../stdout

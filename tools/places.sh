#!/bin/sh
# Counts the places that docs/DESIGN-PASS.md speaks of, in the crates below the folder given (this checkout where none is).
# With -l it lists them. It only reads.
list=0
[ "$1" = -l ] && { list=1; shift; }
cd "${1:-$(dirname "$0")/..}" || exit 1

# count LABEL REGEX: the lines of src/ that match, comments left out
count() {
    found=$(grep -nE "$2" crates/*/src/*.rt | grep -vE '^[^:]*:[0-9]*: *//')
    n=$(printf '%s' "$found" | grep -c '')
    printf '%5d  %s\n' "$n" "$1"
    [ $list = 1 ] && printf '%s\n' "$found" | sed 's/^/         /'
}

echo 'Point 1: shapes of Option and Result, flags, numbers'
count '1a structs and enums' '^(pub )?(struct|enum) '
count '1b fields that are flags' '^    (pub )?[a-z_]+: bool,'
count '1c constants of eight bits, kinds among them' '^(pub )?const [A-Z_]+: u8 ='
count '1d numbers of refusals' 'number: u8|number: [0-9]|refused\(.*[0-9]\)|number (==|!=) 0'
echo 'Point 3: loops'
count '3a while and loop' '^ +(while|loop) '
count '3b for over a range from 0' ' for [a-z_]+ in 0\.\.'
echo 'Point 4: copies, conversions, comparisons'
count '4a casts by as' ' as (u8|u16|u32|u64|usize)($|[^a-z_0-9])'
count '4b types whose derives are Clone and Copy alone' '^#\[derive\(Clone, Copy\)\]'
count '4c functions for a conversion or a comparison' 'fn (same|wide|as_length|letter|bit|one|digit|number_of|is_same|is_anew|decimal|verdict_by|both|either|less|less_one|index|byte_at)\('
echo 'Point 5: parameters that travel together'
awk '
    /^ *(pub )?(extern "C" )?fn / || /^ *#?\[?.*fn [a-z_]+.*\($/ { head = $0; open = 1; text = ""; file = FILENAME; line = FNR }
    open { text = text $0; if ($0 ~ /\)( ->.*)?( \{)?$/ || $0 ~ /^\)/) {
        open = 0; params = text; sub(/^[^(]*\(/, "", params); sub(/\)( ->.*)?( \{)?$/, "", params)
        n = gsub(/: [&a-z(A-Z\[]/, "", params)
        if (n > 4) { total += 1; if (list) print "         " file ":" line ": " n " " substr(head, 1, 60) } } }
    END { printf "%5d  5a functions of more than four parameters\n", total }' list=$list crates/*/src/*.rt
echo 'Point 6: lengths beside buffers, places beside buffers, bounds tested by hand'
count '6a fields that are a length' '^    (pub )?len: usize,'
count '6b a buffer and a place in it' 'out: &mut \[u8\], at: usize|out: &mut \[u8\],$'
count '6c a place tested against a length before it is used' 'if .*(\.len\(\) <= [a-z]|[a-z] >= [a-z_]+\.len\(\)|[a-z] < [a-z_]+\.len\(\))'
echo 'Point 7: switches'
count '7a one comparison with a constant after another' '^    if [a-z]+ == (b.|[A-Z_]+|[0-9]+).* \{$|^    if same\('
echo 'Point 8: proofs'
printf '%5d  8a files of answers\n' "$(find crates -path '*/proofs/*' -name Answers.antt -not -path '*/out/*' | grep -c '')"
printf '%5d  8b answers\n' "$(find crates -path '*/proofs/*' -name Answers.antt -not -path '*/out/*' -exec cat {} + | grep -cE '^pub [^ ]+ : goal\.')"
printf '%5d  8c files that import from older homes\n' "$(grep -rlE '^use (lib|mathlib|borrow|native|Prim)\.' crates --include=*.antt | grep -vc /out/)"
printf '%5d  8d lines of proofs\n' "$(find crates -path '*/proofs/*' -name '*.antt' -not -path '*/out/*' -exec cat {} + | grep -c '')"

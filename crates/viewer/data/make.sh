#!/bin/sh
# Makes film.rec from film.txt, and the lines ../stdout that the viewer must write for it, worked out by hand. Run it in this folder.
set -eu

# A record: byte 0 and the text, padded with spaces to 127 bytes, and the newline. The last one is short: a byte alone.
{
    while IFS= read -r line; do printf '%-127s\n' "$line"; done <film.txt
    printf 'E'
} >film.rec

cat >../stdout <<'END'
D 00 lamp     | -
D 00 uv       | -
D 00 ir       | -
D 00 filter   | -
D 00 red      | -
D 00 expose   | -
D 00 lit      | -
C 00 -        | lit
D 00 clean    | lit clean
D 00 pair     | lit clean pair
C 00 -        | lit clean
C 00 -        | clean pair
C 00 -        | lit clean
C 00 -        | clean pair
C 00 -        | -
D 00 done     | -
D 00 violet   | -
C 00 -        | lit
C 00 -        | -
C 00 -        | -
C 00 -        | -
C 00 -        | done
R 05 -        | done
R 05 -        | done
R 06 -        | done
R 06 -        | done
R 04 -        | done
R 03 -        | done
D 00 many     | done
C 00 -        | lit
R 02 -        | lit
END

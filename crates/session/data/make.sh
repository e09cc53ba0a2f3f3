#!/bin/sh
# Makes session.rec from session.txt, and the stored replies ../stdout: document 01, "A session printed". Run it in this folder.
set -eu

# A record: byte 0 and the text, padded with spaces to 127 bytes, and the newline.
while IFS= read -r line; do printf '%-127s\n' "$line"; done >session.rec <session.txt

# A reply: padded with spaces to 49 bytes, and the newline.
while IFS= read -r line; do printf '%-49s\n' "$line"; done >../stdout <<'END'
D 00 lamp
D 00 uv
D 00 expose
D 00 a
C 00 -        uv
H 01 a
C 00 -        lamp
C 00 -        expose
END

#!/bin/sh
# bytes.sh FILE.hex: the bytes that an annotated hex file spells, on standard output. '#' starts a comment.
set -eu
octal=$(LC_ALL=C awk '
    { sub(/#.*/, ""); gsub(/[ \t\r]/, ""); digits = tolower($0) }
    length(digits) % 2 || digits ~ /[^0-9a-f]/ { print FILENAME ": line " NR ": no hex bytes" > "/dev/stderr"; exit 1 }
    {
        for (i = 1; i < length(digits); i += 2) {
            high = index("0123456789abcdef", substr(digits, i, 1)) - 1
            low = index("0123456789abcdef", substr(digits, i + 1, 1)) - 1
            printf "\\%03o", high * 16 + low
        }
    }' "$1")
# The octal numbers are the format, so that printf writes a byte for each, zeroes too.
# shellcheck disable=SC2059
printf "$octal"

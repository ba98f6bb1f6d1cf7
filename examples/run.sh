#!/bin/sh
# The story of the clock tree: each example with what it draws. Ends non-zero if one draws something else. What is written
# behind run.sh goes to the C compiler, as -fsanitize=address.
set -eu
cd "$(dirname "$0")/.."
. tests/host/archive.sh
for file in examples/*.hex; do examples/bytes.sh "$file" > "$out/$(basename "$file" .hex)"; done
gcc -std=c99 -O2 -Wall -Wextra -Wpedantic -Werror "$@" -Iinclude examples/host.c "$lib" -o "$out/example-host"

# show WHAT DUE MODEL TABLE [FINDING]: the last line is the one that is due.
show() {
    what=$1 due=$2 model=$3 table=$4
    drawn=$("$out/example-host" "$out/$model" "$out/$table" ${5:+"$out/$5"} | tail -n 1)
    printf '   %-47s %-16s %s\n' "$what" "$drawn" "${5:-$table}.hex on $model.hex"
    [ "$drawn" = "$due" ] || { echo "it should be: $due" >&2; exit 1; }
}
cat <<'END'
The terminal clock tree (examples/clock.hex has it byte by byte):

       config PUSH          config TICK            config RTC
           bool "..."           bool                   bool "..."
           select TICK          depends on RTC

A line is: what is checked; answer, place, second place, symbol; the bytes. 0 is yes.

1. Is this table valid?
END
show "released: PUSH y, TICK y, RTC n" "0 65535 65535 -" clock clock-released
show "TICK off: PUSH y, TICK n, RTC n" "11 1 65535 TICK" clock clock-refused
show "all off:  PUSH n, TICK n, RTC n" "0 65535 65535 -" clock clock-all-n
cat <<'END'
   11 at 1, TICK: PUSH selects TICK, so TICK may not be n. The released table keeps every rule.

2. Can the select override an unmet dependency? In the released table it does: TICK is y, the RTC that it depends on is n.
   A check of tables alone does not see that. The same table as a witness against select 0 shows it:
END
show "a witness that the select is unmet" "0 65535 65535 -" clock clock-all-n clock-witness
show "a clearance that it never is, refused" "23 4 65535 -" clock clock-all-n free-clearance
cat <<'END'
   23 at 4: the leaf at byte 4 of that clearance claims more than is so.

3. And once the tree is mended? A clearance says: in no valid table of this tree.
END
show "TICK depends on nothing: one leaf" "0 65535 65535 -" free clock-all-n free-clearance
show "select TICK if RTC: a split on RTC, two leaves" "0 65535 65535 -" narrow clock-all-n narrow-clearance

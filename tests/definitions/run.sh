#!/bin/sh
# Wrong readings of document 01 that its worked cases P1 to P10 let through. Each edit here changes one line of crates/meaning: that crate
# is still proved, and the theorems of crates/demands must refuse it. A line an edit: its name, what is wrong, and what is refused first.
set -eu
cd "$(dirname "$0")/../.."
work=$(mktemp -d)
trap 'rm -rf "$work"' EXIT
trap 'exit 1' HUP INT TERM

# prove REPOSITORY CRATE
prove() { (cd "$work/$1/crates/$2" && rt check) > "$work/$1.$2" 2>&1; }

# As it stands it must be proved, or a refusal would say nothing.
mkdir -p "$work/as-it-stands/crates"
git init -q "$work/as-it-stands"
printf 'tri:\nmeaning: tri\ndemands: meaning tri\n' > "$work/as-it-stands/crates.txt"
cp -R crates/tri crates/meaning crates/demands "$work/as-it-stands/crates/"
rm -rf "$work"/as-it-stands/crates/*/must-fail
prove as-it-stands demands || { tail -n 20 "$work/as-it-stands.demands"; exit 1; }

# put OLD NEW: what comes in, with NEW in the place of OLD, which must stand there once.
put() {
    old=$1 new=$2 awk '
        BEGIN { old = ENVIRON["old"]; new = ENVIRON["new"] }
        at = index($0, old) {
            found += index(substr($0, at + 1), old) ? 2 : 1
            $0 = substr($0, 1, at - 1) new substr($0, at + length(old))
        }
        { print }
        END { exit found != 1 }'
}

# refused NAME: makes the edit and says which fact is refused. An error about a name or about no fact of `proofs` is no refusal.
refused() {
    edit=tests/definitions/$1.edit
    file=$(sed -n 's/^file: //p' "$edit")
    cp -R "$work/as-it-stands" "$work/$1"
    put "$(sed -n 's/^old: //p' "$edit")" "$(sed -n 's/^new: //p' "$edit")" < "crates/meaning/$file" \
        > "$work/$1/crates/meaning/$file" || { echo "$1: the old text does not stand once in $file"; return 1; }
    prove "$1" meaning || { echo "$1: meaning itself refuses it: $(grep -m 1 ' error: ' "$work/$1.meaning")"; return 1; }
    if prove "$1" demands; then echo "$1: NOT refused"; return 1; fi
    error=$(grep -m 1 ' error: ' "$work/$1.demands" || tail -n 1 "$work/$1.demands")
    # shellcheck disable=SC2016
    fact=$(printf '%s\n' "$error" | grep -v -e 'not in scope' -e 'has no field' -e 'has no `' -e 'not admitted' |
        sed -n 's|^\./\(proofs/[A-Za-z]*\.antt\):[0-9:]* error: `\([^`]*\)`: .*|\1, \2|p')
    [ -n "$fact" ] || { echo "$1: not refused for a fact: $error"; return 1; }
    echo "$1: $(sed -n '1s/^# //p' "$edit"): refused at $fact"
    : > "$work/$1.refused"
}

# Two at a time.
count=0
for edit in tests/definitions/*.edit; do
    refused "$(basename "$edit" .edit)" &
    count=$((count + 1))
    [ $((count % 2)) -eq 1 ] || wait
done
wait
set -- "$work"/*.refused
if [ $# -ne "$count" ] || [ ! -e "$1" ]; then echo "not every edit was refused as it should be" >&2; exit 1; fi
echo "$count definition edits refused"

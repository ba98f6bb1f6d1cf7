#!/usr/bin/env bash
# Counts, in one commit, the places of src/ that docs/DESIGN-PASS.md speaks of: a line for each point, its pattern and how many lines match.
#
#     tools/places.sh COMMIT            the counts
#     tools/places.sh COMMIT POINT      the lines themselves
set -euo pipefail
cd "$(dirname "$0")/.."
commit=${1:-HEAD}
only=${2:-}
count() {
    local point=$1 what=$2 pattern=$3 n
    if [ -n "$only" ]; then
        if [ "$only" = "$point" ]; then git grep -nE "$pattern" "$commit" -- 'crates/*/src/*.rt' || true; fi
        return
    fi
    n=$(git grep -hE "$pattern" "$commit" -- 'crates/*/src/*.rt' | wc -l || true)
    printf '%-4s %4d  %s\n' "$point" "$n" "$what"
}
count 1a 'own enums with a variant for "none" or "failed"' '^    (Clean|Refused|Bad|Malformed\(usize\)),$'
count 1b 'early returns written out, where ? stands for them' 'if let (Outcome::Fault\(_, _, _\)|Err\(_\))'
count 1c 'numbers for none, for failed, or for two things in one' 'CROWDED|BUSY|131072 \+ at|65536 \+ at|131072 \{|65536 \{|65535 < from|first: u16|later: u16|first == 0|\{ 256 \}|usize = 65536|^        return 0;$|known != 0|set_in\(|=> 65535|^ +65535$|return 65535|= [0-9]u16;'
count 1d 'refusals by number' 'fault_if\(.*, [0-9]+, |Outcome::Fault\([0-9]'
count 1e 'arms of a match that name a kind by its number' '^ +[0-9]+(\.\.=[0-9]+)? =>'
count 1f 'tests of a kind by its number' '\b(op|rule|mark|y|k|kind) (==|!=|<=|<) [0-9]|[0-9] (==|!=|<=|<) op\b'
count 2a 'functions with a twin' '^ *(pub )?fn (spell_hex|spell_int|spell|decimal|same_as|same_three|int_to|hex_to|ordered|leaf_value|at_least|ms|first_that_is|other|equal_pairs|letter_set|pairs|opposite|both|either|every_pick|every_prompt|every|link|first_mark|second_mark|part|name_length_from|name_offset_from|name_from|default_symbol_from|target_from|member_symbol_from|input_room|node_room|line_room|room|read_full)[(<]'
count 2b 'loops for the first fault of many, each written out' 'for [a-z]+ in (0\.\.(n|8|6|fields.*)|base\.\.end) \{$'
count 3a 'while and loop' '^ *(while|loop)\b'
count 3b 'for over the numbers of an index' '^ *(.[a-z]+: )?for [a-z_]+ in [0-9a-z_]+\.\.'
count 4a 'casts by as' ' as (u8|u16|u32|u64|usize|i32)\b'
count 4b 'the number of a three-valued value compared' '\.v (<|<=|==|!=) |(<|<=|==|!=) [a-z]+\.v\b'
count 4c 'conversions, equality and printing by functions of their own' '^ *(pub )?fn (of|of_value|answer_of|pack|wide|joined|same|size|number|numbers|lower|bits_from|is_digit)[(<]'
count 5a 'contracts that state Known' '(requires|ensures).*Known'
count 5b 'functions that take book, table and node work one by one' 'm: &\[u8\], t: &\[u8\], vs: &\[u8\]'
count 5c 'functions that take the starts, the base and the rooms of a block one by one' '(symbols|texts|base|heads|marks|nexts): (usize|&)'
count 6a 'buffers with a length, parallel arrays' 'bytes: \[u8; 14\]|at: usize,$|\[0u(8|16); (96|128|256|BLOCK)\]|fn append\('
count 7a 'a number or a flag that says which step to run' 'fn (apply|operand|pairs|broken|every_pick|bound|at_least)\(.*(op|rule|largest): '
if [ -z "$only" ]; then
    for f in Answers Invariants; do
        printf '%-4s %4d  files proofs/*/%s.antt\n' 8 "$(git ls-tree -r --name-only "$commit" | grep -cE "^crates/.*/proofs/.*/$f\.antt$")" "$f"
    done
    printf '%-4s %4d  lines of proofs/\n' 8 "$(git ls-tree -r --name-only "$commit" | grep -E '^crates/.*/proofs/.*\.antt$' | while read -r p; do git show "$commit:$p"; done | wc -l)"
fi

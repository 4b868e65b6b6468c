#!/bin/sh
# Prints the places that docs/DESIGN-PASS.md counts, point by point, in the sources of a commit:
#
#     tools/design_places.sh COMMIT          each point's count
#     tools/design_places.sh COMMIT POINT    the places of one point (1a, 1b, ..)
#
# A pattern finds candidates; which of them are places of the point, and which are kept, the page says.
set -eu
commit=${1:?a commit}
only=${2:-}
src=':(glob)crates/*/src/**'

# NAME TITLE PATTERN: lines that match
lines() {
    found=$(git grep -nE "$3" "$commit" -- "$src" | sed "s/^$commit://" || true)
    tell "$1" "$2" "$found"
}

# NAME TITLE PATTERN: what is matched in two or more places
twice() {
    found=$(git grep -hoE "$3" "$commit" -- "$src" | sort | uniq -c | awk '1 < $1' || true)
    tell "$1" "$2" "$found"
}

tell() {
    count=$(printf '%s' "$3" | grep -c . || true)
    if [ -z "$only" ]; then
        printf '%-3s %4d  %s\n' "$1" "$count" "$2"
    elif [ "$only" = "$1" ]; then
        printf '%s\n' "$3"
    fi
}

lines 1a 'enums of our own' '^(pub )?enum '
lines 1b 'flags in a struct' '^    (pub )?[a-z_]+: bool,$'
lines 1c 'an answer beside values' '^    (pub )?answer: (Answer|u8),$'
lines 1d 'numbers for commands, statuses and answers' '\b(command|status|answer): u8\b'
twice 2a 'names of functions that stand twice' '\bfn [a-z_0-9]+'
twice 2b 'names of types that stand twice' '\b(struct|enum) [A-Z][A-Za-z]+'
lines 2c 'arrays with a used length' '^    pub count: usize,$'
lines 3a 'loops with while' '^ *(while|loop)\b'
lines 3b 'for loops over numbers' '^ *for .* in [0-9a-z_.() ]+\.\.'
lines 4a 'equality, conversion and blanks by hand' '\bfn (same[a-z_]*|agrees_with|number|octet|command_of|in_numbers|line_of|put_number|put_hex|put_octets|put_part|digit_of|first_difference|blank|none|nothing|is_who|is_join|is_dash|has_at|has_station|at_most_[0-9]+|copy)\b'
lines 5a 'AP count, T and R as three parameters' '^    timeout: u16,$|ap_count: u(8|16), timeout: u16'
lines 5b 'the record is within its limits, asked by a clause' '(requires|ensures).*(count ≤ (8|16|64)|Usable a|valid_network_record network ≡ true|valid_network_record result|Packed sent|length context.now ≤ 64)'
lines 6a 'a length beside an array' '^    (pub )?(len|count|context_len): usize,$'
lines 7a 'a bool parameter that switches a step' '^(pub )?fn .*\b[a-z_]+: bool'

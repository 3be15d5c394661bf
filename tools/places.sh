#!/bin/bash
# Lists the places in crates/*/src that the points of docs/DESIGN-PASS.md speak of, by patterns. Each line that a pattern
# finds is a candidate; the page says what became of each.
#
#   tools/places.sh [POINT]        (all points if none is given)
set -uo pipefail
cd "$(dirname "$0")/.."
only=${1:-}

# find POINT NAME PATTERN: the lines that the pattern finds, and how many they are
find_lines() {
    if [ -n "$only" ] && [ "$only" != "$1" ]; then
        return
    fi
    local lines
    lines=$(grep -rnE "$3" crates/*/src --include='*.rt' | grep -vE ':[0-9]+: *///?')
    printf '== point %s, %s: %d\n' "$1" "$2" "$(printf '%s' "$lines" | grep -c '')"
    if [ -n "$only" ]; then
        printf '%s\n' "$lines"
    fi
}

find_lines 1 'own enums' '^(pub(\([a-z]+\))? )?enum '
find_lines 1 'dummy results' '\) -> u8$'
find_lines 1 'values that stand for none' '\bOVER\b|_ => 16,|Silent|Noting::Nothing|Deed::Rest'
find_lines 1 'made from codes' 'fn (of_code|of_operation|kind_for|kind_of|class_of)\b'
find_lines 2 'functions that carry a theorem' 'fn \w+_stand\(\)'
find_lines 3 'counted loops' 'for \w+ in \(?[0-9a-z_.()]*\.\.'
find_lines 3 'while loops' '^ *while '
find_lines 3 'loops over elements' '^ *for \w+ in [a-z]'
find_lines 4 'comparisons and conversions by hand' 'fn (is_same|is_before|of_code|of_operation|class_of|kind_for|kind_of|number|after_mark)\b'
find_lines 4 'printing by hand' 'fn (put\w*|write\w*|\w+_length)\b'
find_lines 4 'plain data without derives' '^#\[derive\((Drop|Clone, Copy)\)\]'
find_lines 5 'text and place together' 'text: &\[u8\],( from: usize,)? place: usize|field: &\[u8\], place: usize|digits: &\[u8\], place: usize'
find_lines 5 'buffer and place together' 'out: &mut \[u8\], at: usize'
find_lines 5 'parts and shown words together' 'shown: &\[Word\]'
find_lines 5 'the fact on a place in a contract' 'Placed place result'
find_lines 6 'arrays of fixed length' '\[[A-Za-z0-9]+; [A-Z0-9_]+\]'
find_lines 6 'spans of flat lists' '\bSpan\b'
find_lines 6 'lists by rank' 'pub(\(crate\))? (words|held|shown|notes|deeds|noted|names|bodies|items|cases|first|order): Vec<'
find_lines 7 'switches on a kind' 'match (self\.stage|kind|self\.kind|size|function)\b'

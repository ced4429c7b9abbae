#!/usr/bin/env bash
# Prints the places in crates/*/src that the pass over the design asks about, point by point, and counts them.
# What a line means is for a reader to say: docs/DESIGN-PASS.md does.
#   tools/places.sh [POINT..]      in the checkout that holds this script; ROOT=folder for another checkout
set -u
root=${ROOT:-$(cd "$(dirname "$0")/.." && pwd)}
cd "$root" || exit 1

find_in() { grep -rnE "$@" crates/*/src --include='*.rt' | grep -vE ':[0-9]+:\s*//'; }
comments() { grep -rnE "$@" crates/*/src --include='*.rt'; }

shown() { # a title, then the lines on stdin
    local lines
    lines=$(cat)
    printf '## %s: %s\n' "$1" "$(printf '%s' "$lines" | grep -c '')"
    [ -n "$lines" ] && printf '%s\n' "$lines"
    return 0
}

point1() {
    find_in '^(pub |pub\(crate\) )?enum ' | shown '1 enums, to be read for the shape of Option or Result'
    find_in '^\s*(pub |pub\(crate\) )?[a-z_]+: bool,' | shown '1 flags in structs'
    comments '//.*(where there is none|for none|0 when|elsewhere it is 0)' | shown '1 values that mean none'
    find_in 'const [A-Z_]+: u8 = 0x|=> (0x)?[0-9A-F]+,$|of_(frame|message)\([0-9]+|: u64 = (0|256);' | shown '1 numbers for kinds and refusals'
    find_in '(None|Err\(_\)) => (None|false|return None)|None => (refused|Err\()|Err\([a-z]+\) => Err\(|(Some|Ok)\([a-z]+\) => (Some|Ok)\(' | shown '1 matches that only hand on'
    find_in -A2 '^\s+Some\(.*\)$' | grep -E -A1 'else \{' | grep -E 'None' | shown '1 Some or None by an if'
}
point2() {
    find_in '^\s*(pub |pub\(crate\) )?(extern "C" )?fn ' | sed -E 's/.*fn ([a-z_0-9]+).*/\1/' | sort | uniq -c | awk '$1 > 1' | shown '2 names of functions that stand more than once'
    find_in '^impl.* (Coded|fmt::Display|OfMobile|Carrier|InOrder) for' | shown '2 impls of one trait'
    find_in 'u32::from_be_bytes' | shown '2 numbers of four octets'
    find_in '^(pub |pub\(crate\) )?struct ' | shown '2 structs, to be read for twins'
}
point3() {
    find_in '^\s*(while|loop)\b' | shown '3 while and loop'
    find_in '^\s*for [a-z_]+ in \(?[a-z0-9_.()]+\.\.' | shown '3 loops over a range'
    find_in '^\s*for \([a-z_]+, [a-z_&]+\) in .*enumerate\(\)' | shown '3 loops with enumerate'
}
point4() {
    find_in 'fn (is|is_same|before|eq|cmp|number|octet|from_[a-z]+|[a-z]+_of|[a-z]+_from)\(' | shown '4 functions named like an equality, an order or a conversion'
    find_in '\.is\(' | shown '4 calls of an equality by hand'
}
point5() {
    find_in 'requires' | sed -E 's/^([^:]+):[0-9]+:\s*requires( [a-z]+)? \{/\1: {/' | sed -E 's#crates/([a-z_]+)/src/[a-z_]+.rt#\1#' | sort | uniq -c | awk '$1 > 1' | shown '5 premises that stand more than once in a crate'
    find_in 'fn .*(octets: &\[u8\], at: usize|buffer: &mut \[u8\], at: usize|source: NodeNumber, destination: NodeNumber|own: NodeNumber|held: usize|row: &\[u64\])' | shown '5 parameters that travel together'
}
point6() {
    find_in '^\s*(pub |pub\(crate\) )?(count|len|spent|held): usize' | shown '6 counts beside buffers'
    find_in '^\s*(pub |pub\(crate\) )?[a-z_]+: \[.*; .*\],' | shown '6 arrays in structs'
    find_in '^(pub |pub\(crate\) )?const [A-Z]+: \[' | shown '6 constant tables'
}
point7() {
    find_in '\b(dyn|Box<|fn\()' | grep -vE 'fn [a-z_]+' | shown '7 dyn, boxes, function pointers'
    find_in 'match (self|mode|form|change)\b' | shown '7 matches on a mode or on self'
}
point8() {
    find crates/*/proofs -name '*.antt' | grep -vE '/Lib.antt$' | awk -F/ '{ n[$2]++ } END { for (c in n) print c ": " n[c] }' | sort | shown '8 proof files by crate'
    printf '## 8 lines of proofs: %s\n' "$(find crates/*/proofs -name '*.antt' -exec cat {} + | wc -l)" 
}
for p in ${*:-1 2 3 4 5 6 7 8}; do "point$p"; done

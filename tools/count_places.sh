#!/bin/bash
# Prints, for a commit (tools/count_places.sh COMMIT), how many lines of src/ each search of docs/DESIGN-PASS.md finds. The number before a name
# is that of its point. Comments and ghost lines are left out where the search is for code.
c=$1
g() { printf '%s\t%s\n' "$(git grep -hE "$2" $c -- 'crates/*/src/*.rt' 'crates/*/src/**/*.rt' | grep -vE '^ *(//|ghost|ensures|requires)' | wc -l)" "$1"; }
gc() { printf '%s\t%s\n' "$(git grep -hE "$2" $c -- 'crates/*/src/*.rt' 'crates/*/src/**/*.rt' | wc -l)" "$1"; }
g '1 classes'  '\bclass\(\w+\)'
g '1 rows'  '\b6[5-8]\b *(=>|,|\.\.)|^ *6[78]\.\.|row (==|>=|<) (1|2|6[5-8])\b|outside\(1\)|fits\(1,|^ *1 => Controls|place: 1,'
g '1 refusals'  'of_(bytes|structure|element|total)\([0-9]|number: 23|pub (number|layer): u8'
gc '1 none'  '0: none|0 tells|, or 0\.|\(0 |0 for no '
g '1 flags'  '(line|bad|closed|opens|paired|lacking): bool'
g '1 laws'  'fn \w+\(\) -> u8'
g '2 twins'  'fn (of_bytes|of_structure|of_element|of_total|has_length|has_length_in|is_wrong_count|is_wrong_sum|must|may|is_just|is_either|placed|placed_by_either|named|is_among|has_all|has|add|clear|\w+_rule|\w+_code|is_\w+_qualifier)\(|fn \w+_(rule|code)\(|struct (Limits|Rule|Judgment|Totals|ControlNumbers|LineNumbers)\b'
g '3 loops'  '\bwhile |\bloop \{|for \w+ in [^&]*\.\.'
g '4 same_bytes'  'same_bytes\('
g '4 conversions'  'fn fault\(|\.fault\(\)|fn push_number|push_number\(|\(number % 10\)|REFUSED \{\}'
g '4 only copied'  'derive\(Clone, Copy\)'
gc '5 facts'  'requires.*(2 \^ 64|limit_at|SmallCounts)'
g '5 together'  'separator: u8|delimiters: Delimiters|first: &\[u8\]'
g '6 buffers'  '\[[a-zA-Z0-9]+(<.*>)?; *\w+\]|(count|len|depth): usize,'
g '7 steps'  '=> (Some\()?(self\.)?(pass|begin_set|inside|\w+_rule|\w+_code|Turn::\w+)\b'
printf '%s\t8 answers\n' "$(git grep -hE '^pub [a-z_0-9+-]+ :' $c -- 'crates/*/proofs/*Answers.antt' 'crates/*/proofs/**/Answers.antt' | wc -l)"
printf '%s\t8 lines of proofs\n' "$(git grep -hE '' $c -- 'crates/*/proofs/*.antt' 'crates/*/proofs/**/*.antt' | wc -l)"
printf '%s\t  lines of src\n' "$(git grep -hE '' $c -- 'crates/*/src/*.rt' 'crates/*/src/**/*.rt' | wc -l)"

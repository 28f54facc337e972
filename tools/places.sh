#!/bin/bash
# Places where older forms may stand, point by point, in src/ at a commit: tools/places.sh [COMMIT] [-n for counts alone].
at=${1:-HEAD}
only=${2:-}
find_in() { git grep -nE "$1" "$at" -- 'crates/*/src/*' | sed "s/^$at://" | grep -vE '^[^:]*:[0-9]+: *//'; }
show() { local found; found=$(cat); printf '%s\t%s\n' "$1" "$(printf '%s' "$found" | grep -c .)"; [ -n "$only" ] || printf '%s\n' "$found" | sed 's/^/    /'; }

find_in '\benum [A-Z]' | show '1 enums'
find_in '^    [0-9]+ => |const [A-Z]+: u8|axis: u8|kind: u16|-> u8$' | show '1 numbers that say a kind, or an answer that says nothing'
find_in '\((true|false)\)|-> \([A-Za-z0-9]+, bool\)|Option<\([a-z0-9]+, bool\)>' | show '1 a value with a flag'
git grep -hoE '(fn|struct|enum) [A-Za-z_]+' "$at" -- 'crates/*/src/*' | sort | uniq -d | show '2 names that two items have'
git grep -hoE 'impl(<[^>]*>)? [A-Z][A-Za-z:]* for' "$at" -- 'crates/*/src/*' | sort | uniq -c | awk '$1 > 1' | show '2 traits with several impls of one form'
find_in 'for [a-z_]+ in [a-z0-9_]*\.\.|\bwhile\b|\bloop \{' | show '3 loops over an index, while and loop'
find_in 'm\[[0-9]\]|as (u8|u16|u32|usize)\b' | show '3 and 4 indices and casts by hand'
find_in 'fn (report|text|name|range|show_[a-z]+|print[a-z_]*|unfit|fitting)\b' | show '4 conversions and printing'
find_in '=> (Ok|Some)\(|None => None|Err\([a-z_]+\) => (return )?(Err|refuse)' | show '1 and 4 an Option or a Result mapped by hand'
git grep -hoE '(requires|ensures) [a-z_]+ \{.*\}$' "$at" -- 'crates/*/src/*' | sort | uniq -c | awk '$1 > 2' | show '5 clauses that three functions or more have to the letter'
find_in 'how: &L|heap: Global,|claims: &Claims|kind: u8, value: i32|out: &mut String' | show '5 parameters that travel together'
find_in '\[[A-Za-z<>0-9]+; [A-Z0-9]+\]|used: usize|start: usize' | show '6 arrays of a fixed length, and lengths or places beside a buffer'
find_in '\bdyn\b|\bfn\(|match part\.make|impl Fn' | show '7 switches, function values and dyn'

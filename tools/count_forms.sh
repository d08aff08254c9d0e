#!/usr/bin/env bash
# Counts, at a commit (HEAD if none is named), the places in src/ whose form an older Rattle had asked for, a line for each point of
# docs/DESIGN-PASS.md. With -v it prints each place.
set -euo pipefail
cd "$(dirname "$0")/.."
show=
if [ "${1:-}" = -v ]; then show=1; shift; fi
at=${1:-HEAD}
src='crates/*/src/*.rt'
# A point's places: the lines of src/ that match.
lines() { git grep -nE "$1" "$at" -- "$src" || true; }
# A point's places: the names that two items share, of those that match.
twice() { git grep -hoE "$1" "$at" -- "$src" | sort | uniq -d || true; }
point() {
    local found
    found=$(cat)
    echo "point $1: $(printf '%s' "$found" | grep -c . || true)"
    if [ -n "$show" ]; then printf '%s\n' "$found" | sed 's/^[^:]*:crates/  crates/'; fi
}
{
    # enums with a case for nothing or of two results; numbers for kinds; refusals as numbers
    lines '^ +Other,$|^ +Head::Other =>|enum Report \{|pub const (FORWARD|REVERSE)|cuts: \[Row; 4\]|w: u16\)|-> u8 \{|\(Event, u8\)|Err\(Fault::'
} | point 1
{
    twice '^ *(pub |pub\(crate\) )?fn [a-z_]+' | sed 's/pub(crate) //; s/pub //' | grep -vE 'fn (new|from|try_from|fmt|main|next|key|join|begin|take|count|at|is_before|find|insert|clear|start|local|send|receive|meet|close|order|stamp|answer|on_rows|on_links|limits|worked|fill)$' || true
    twice '(struct|enum) [A-Z][A-Za-z]+'
    lines 'impl KeyOrder for|impl Joining<Row> for|fn (least|greatest)_(row|counts)|fn count_places|const (NODES|ENTRIES|EVENTS|MAX_MESSAGES|MAX_ROWS|MAX_MEMBERS|MAX_NUMBER|MAX_NAME|MOST): (usize|u32|u16) = '
} | point 2
lines '^ +while |^ +for [a-z_]+ in [0-9A-Za-z_.]+\.\.' | point 3
lines 'fn (number|of_number|same|same_value|or_zero|greater|put_number|relation_of|word_of|yes_or_no|is_before|done|placed|of_writing|of_call|node_of|partner_of|told|ordered)\b|Some\(.*\) => Some\(' | point 4
lines 'Sound F\.Clock\.means|drop self\.(old|now)\.pos|a: u16, b: Option<u16>|^ +b: Option<u16>,|at \+ 32 ≤|^ +at: usize,|, at: usize' | point 5
lines '^ +(pub |pub\(crate\) )?len: (u16|usize),|[ (]len: (u16|usize)[,)]|table\[mid\]' | point 6
lines 'enum (View|Comparison)|stop: bool|match view \{|match self \{$' | point 7
{
    git ls-tree -r --name-only "$at" crates | grep -E 'proofs/.*\.antt$' || true
} | point 8

#!/bin/sh
# Lists the places of older forms in src/, a line each, by point of docs/DESIGN-PASS.md. Run at the top; give a point's number to list one alone.
# Tests are left out. Two points are counted otherwise: twins by reading, answers by trying the check without them.
only=$1
files=$(find crates -path '*/src/*' ! -path '*/out/*' -name '*.rt' ! -name 'tests.rt' | sort)
point() {
    [ -z "$only" ] || [ "$only" = "$1" ] || return 0
    list=$(grep -nE "$3" $files)
    echo "== $1. $2: $(printf '%s' "$list" | grep -c .)"
    printf '%s\n' "$list"
}
point 1a 'enums of our own' '^ *(pub )?enum '
point 1b 'flags in structs and enums' '^ +(pub )?[a-z_]+: bool,|\{ [a-z_]+: bool \}'
point 1c 'an Option or a Result turned by hand' '(None|Err\(.*\)|_) => (return )?(Err|Ok|None|false|Some)|^ *let Some\(.*else \{$|^ *(if )?let (Some|Ok|Err)\(.*\{$|is_some\(\) \{|else \{ None \}'
point 1d 'numbers for kinds' '(phase|label|name|sign|mark)s?: (u8|bool),|if .*(phase|label) == 0|mark\[[a-z]+\] = [0-9]'
point 3a 'loops by while and loop' '^ *(while |loop \{|'"'"'[a-z]+: loop)|= .*loop \{'
point 3b 'loops over a range' '^ *for .* in .*\.\.'
point 4 'equality, order, copies, conversions and words by hand' 'fn (same|is|read|read_kind|read_state|code|program_code|line|column|program_column|blank|blank_step|empty|nothing|start|spelled|reported|confirmation|yes_or_no|word|shown|refused_text|refused_call|refused_load|bad_line|bad_column|verdict_of|clear)\b'
point 5a 'parameters that travel together' '^ *(pub )?fn .*\((&self, |self, |&mut self, )?(text: &\[u8\], at|text: &mut \[u8\], at|.*steps: &\[Step\], stem|opening: Opening|rules: Rules, node|declared: &Declared, (set|e))|^ *(opening: Opening|rules: Rules|steps: &\[Step\]),$|^ *mark: &mut \[u64\],$'
point 5b 'clauses that three contracts or more repeat' '^ *requires .*(stem \{ stem < length|truths \{|states \{|Stands set|Room \(length|at ≤ length text|marks \{|cursors \{|outers \{|inners \{|length seen)'
point 6 'buffers with a length beside, parallel arrays' '^ +(pub )?[a-z_]+: \[.*; [0-9A-Z_]+\],|, count: usize|, len: usize|base: usize|seen: &mut \[u64\]'
point 7 'a switch on which step to run' 'match (pick|shape|kind|self\.origin|opening\.origin|word|self)\b'

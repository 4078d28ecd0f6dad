#!/bin/bash
# Lists the places of older forms in src/, by the headings of docs/DESIGN-PASS.md. Run at the top of the repository.
set -u

sources() { git ls-files "crates/*/src/*.rt"; }
# Without the files of tests.
code() { sources | grep -v tests.rt; }
heading() { printf '== %s\n' "$1"; }

# Lists the lines of these files that fit a pattern.
list() {
    heading "$1"
    grep -nE -- "$2" $3
}

list '1a a flag or a sentinel beside a value' '^ *pub known: bool,|const NO_WAY' "$(sources)"
list '1b numbers for kinds' '^pub const (HEAD|OPEN_LEG|CLOSED_LEG|PIVOT|HOME|LAST): u8|fn rank_of' "$(sources)"
list '1c numbers for refusals' 'fn (number|told)\((answer|fault)' "$(sources)"
list '1d an Option or a bool for a refusal' '-> .*Option<(Totals|Seen)>|fn (any_call|draw_both|tied|drain)\b.*bool' "$(code)"
list '1e a result or an option handed on by hand' 'Err\([a-z]+\) => ((return )?Err|Ok\(Err)|None => (return )?None' "$(sources)"
grep -nEA1 'let Some\(.*else \{' $(sources) | grep -E 'return (None|Err)'
list '3 loops that count an index, or fill by pushing' 'for [a-z]+ in .*(\.len\(\)|start)|for (k|mark|home) in 0\.\.|while [a-z.]+ (<|!=) ' "$(code)"
grep -nE 'for _[a-z]* in 0\.\.(places|marks) \{' $(code) | grep -v _added
grep -nE 'for [a-z]+ in [a-z]+(\.iter_mut\(\))? \{' $(code)
list '4a an order taken apart by hand' 'Ordering::(Less|Equal) =>' "$(code)"
list '4b a conversion by a cast' ' as (u8|u16|u32|u64|usize)\b' "$(code)"
list '4c printing, or a blank value, by hand' '=> writeln!|fn reason|fn new\(\) -> Tally' "$(code)"
heading '5 facts and parameters that travel together: requires and ensures by name, and functions of seven parameters or more'
grep -ohE '(requires|ensures) (laid|sea|matched|balled|chart|selves|span|ran|measure|steady|right|lone|clean|tells) \{' $(code) | sort | uniq -c
awk '/^ *(pub(\(crate\))? )?fn /{n=0; name=$0; open=1} open&&/^ *(&self,|[a-z_]+: )/{n++} open&&/^ *\)/{ if (n>=7) print FILENAME": "name" "n; open=0}' $(code)
heading '8 proof files and lines'
git ls-files 'crates/*/proofs/*/Answers.antt' | wc -l
git ls-files 'crates/*/proofs/*.antt' | xargs cat | wc -l

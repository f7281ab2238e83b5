#!/bin/bash
# Lists the places in crates/*/src at which docs/DESIGN-PASS.md looks for older forms, point by point, with how many there are.
# Run it at the top of the repository; with -l it prints each line, and not only how many there are.
cd "$(dirname "$0")/.." || exit 1
show=$1

sources() { find crates -path '*/src/*.rt' -not -path '*/out/*' | sort; }

# lines that match, by a name
lines() {
    local found
    found=$(sources | xargs grep -nE "$2")
    printf '%5d  %s\n' "$(printf '%s' "$found" | grep -c '')" "$1"
    [ "$show" = -l ] && [ -n "$found" ] && printf '%s\n' "$found" | sed 's/^/         /'
}

# what stands more than once, by a name
twice() {
    local found
    found=$(sources | xargs grep -hoE "$2" | sort | uniq -c | awk '$1 > 1')
    printf '%5d  %s\n' "$(printf '%s' "$found" | grep -c '')" "$1"
    [ "$show" = -l ] && [ -n "$found" ] && printf '%s\n' "$found" | sed 's/^/         /'
}

echo '1 flags, numbers and refusals by hand'
lines 'enums' '^ *(pub(\(crate\))? )?enum '
lines 'a flag answered by what changes something' 'fn .*&mut self.*-> bool'
lines 'numbers for kinds and refusals' '(kind|number|layer|cause): u8'
lines 'an error enum wrapped by hand' 'Err\((UnitFault::Own|refused)\('
echo '2 twins'
twice 'constants of one name' '\bconst [A-Z_]+'
twice 'functions of one name' '\bfn [a-z_]+'
lines 'a kind or a size by a function beside its constant' 'fn (kind_number|block_size)\('
lines 'a fault made field by field' '(cause: Cause::[A-Z]|^ *cause,$)'
lines 'the first refusals of a place' 'Cause::(Block|Word), '
lines 'tables' '^    (pub )?[a-z_]+: \[.*; [0-9]+\],|: \[bool; 256\]|\[(false|None); 256\]'
echo '3 loops and indices'
lines 'loops' '^ *(for|while|loop)\b'
lines 'loops over a range of numbers' '^ *for .* in .*\.\.'
lines 'an element by an index that is cast' '\[[^]]* as usize\]'
lines 'a bound tested by hand before an index' '^ *if [a-z_.0]+ (>=|>) [a-z0-9_.]+ \{$'
echo '4 equality, order, conversion, printing'
lines 'newtypes compared by their field' '\.0 (==|!=)|(==|!=) [a-z.]+\.0\b'
lines 'conversions as methods' 'fn (number|report)\(self\)'
lines 'fields of a fault printed one by one' 'let (number|layer|kind|block|word) = seen\.'
echo '5 facts and parameters that go together'
lines 'a flash and a plan' 'plan: &Plan|flash: &F, plan'
lines 'the sizes of a plan in a clause' 'sizes_of'
lines 'the shape of a flash in a clause' 'ensures shapes? \{'
lines 'the length of a table in a clause' '(requires|ensures).*length [a-z.]*(marks|entries|standings)'
lines 'the meaning of a flash twice in a clause' '(F\.model\.meaning [a-z.]*now[a-z.]*\)).*(F\.model\.meaning [a-z.]*now)'
echo '6 buffers with a length beside'
lines 'a length or a count beside a table' '^    (pub )?(len|count): u(8|16),'
echo '7 switches on a step, tables of functions'
lines 'a step by a number' 'if i == 0'
lines 'a purpose that chooses a test' 'Purpose::(Writing|Erasing)'
echo '8 proofs'
printf '%5d  %s\n' "$(find crates -path '*/proofs/*' -name Answers.antt -not -path '*/out/*' | wc -l)" 'files of answers'
printf '%5d  %s\n' "$(find crates -path '*/proofs/*' -name Invariants.antt -not -path '*/out/*' | wc -l)" 'files of invariants'
printf '%5d  %s\n' "$(find crates -path '*/proofs/*' -name '*.antt' -not -path '*/out/*' -print0 | xargs -0 cat | wc -l)" 'lines of proofs'

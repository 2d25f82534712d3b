#!/usr/bin/env bash
# Lists, point by point, the places of the design pass in src/: bash tools/places.sh [COMMIT]
# With no commit it reads the working tree. docs/DESIGN-PASS.md says what each point is.
cd "$(dirname "${BASH_SOURCE[0]}")/.." || exit 2
list() {
    printf '== %s\n' "$1"
    git grep -nE "$2" ${commit:+"$commit"} -- 'crates/*/src/*.rt' | sed "s/^${commit:-@}://" | grep -vE "$3"
}
commit=${1:-}
tests='/tests\.rt:|src/lib\.rt:[0-9]+:    (    )?(fn|let|for) .*rt: HostRuntime|map_tests/'
list '1 sentinels and kind numbers' '^(pub )?const (NONE|READING|BOX|SHRINK|SPLIT)\b|depth: 33|depth (<=|>) 32|[^A-Za-z](NONE|READING|BOX|SHRINK|SPLIT)\b' "$tests|\buse \b"
list '1 flags with a value beside' 'pub [a-z_]+: bool' "$tests"
list '1 enums' '^pub enum ' "$tests"
list '1 answers of no use' '^pub fn .*\(\) -> u8$' "$tests"
list '2 same name in two crates, or a width or a side in the name' 'fn [a-z_]*(16|32|_long_number|_left|_right|_first|_second)\b|fn (entry|store|read|write|take|take_four|give|give_four|complete|survey|first|last|put_number)\b' "$tests"
list '2 types of one shape' '^pub struct (Line|Encoded|Tallied|Spot|Settled)\b' "$tests"
list '3 loops' '(while|for) .*\{$' "$tests|impl|//"
list '4 equality, order, conversion, printing by hand' 'fn (of|of_code|number|ranks_before)\(|println!' "$tests|eprintln"
list '5 facts in three or more contracts' 'ensures rest \{|requires \{ spot|Adds room|requires ends' "$tests"
list '5 parameters that travel together' 'lowest(_motor|_root)?: u16, *(highest|$)|lowest_motor: u16,|priority: u32, code: u32|code: u32, priority: u32|room: &mut \[u8\], at: usize' "$tests"
list '6 a length beside a buffer, indices' 'len: usize|\.len\(\) [<=>]+ ?[0-9]|\[[0-9]\]' "$tests"
list '7 switches on a step, tables of functions' 'fn\(|dyn |down: bool' "$tests"
printf '== 8 proof files of functions\n'
if [ -n "$commit" ]; then git ls-tree -r --name-only "$commit"; else git ls-files; fi |
    grep -cE '^crates/.*/proofs/.*(Answers|Invariants)\.antt$'

#!/bin/sh
# Counts the places that docs/DESIGN-PASS.md speaks of. At the top of a checkout: `tools/places.sh`, or with `-l` for the lines.
found() {
    lines=$(grep -rnE "$2" crates/*/src --include='*.rt' | grep -vE '^[^:]*:[0-9]*: *//|/built_in\.rt')
    printf '%s: %s\n' "$1" "$(printf '%s\n' "$lines" | grep -c .)"
    [ "$show" = -l ] && printf '%s\n' "$lines"
    return 0
}
show=$1
found '1 numbers for kinds and answers, values taken apart' '_KIND: u8|pub fn \w+\(\) -> u8|refusal: Option|unreachable\(\)|Err\(fault\) => Err|None => (None|Err)|Err\(_\) => (None|Err)'
found '3 loops over counted numbers' 'for \w+ in .*\.\.|while '
found '4 by hand: printing, bytes, order, exchanges, copying' 'let (number|block|byte|opens|closes|head|duration|cost|depot|sink) = (fault|below|window|leg|net)\.|256 \*|% 256|/ 65536|/ 16777216|fn is_sooner|t\[\w\] = [xy];|node: a\.|=> \*node,$'
found '5 facts said again in contracts' 'length (block|result)\.(now|old) ≡ 512|Sound image\.now|Heap \(at|Readable \(N|entered ≤ length'
found '6 numbers beside a buffer' '^ *(pub\(crate\) |pub )?(count|entered|first): (u16|usize),$'
found '7 function pointers, dyn, boxes' '\bfn\(|dyn |Box<'
answers=$(git ls-files 'crates/*/proofs/*Answers.antt')
printf '8 files of answers: %s, with %s lines; lines of proofs in all: %s\n' "$(printf '%s\n' "$answers" | grep -c .)" \
    "$(cat $answers | wc -l)" "$(git ls-files 'crates/*/proofs/*.antt' | xargs cat | wc -l)"

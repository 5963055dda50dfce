#!/bin/sh
# Lists, by point of docs/DESIGN-PASS.md, the lines of src/ that may be a place where an older form stands. Run at the top.
look() { # a title, a pattern, and what of it is of no account
    echo "== $1"
    grep -rnE "$2" crates/*/src --include=*.rt | grep -vE "ghost use|^[^:]*:[0-9]*: *//" | grep -vE "${3:-^$}"
}
look '1 enums, to be read for the shape of Option or Result' '\benum [A-Z]'
look '1 flags among values' '^ *(pub )?[a-z_]+: bool,'
look '1 numbers for kinds or refusals' '(number|kind|side|flux|why|NUMBER)[a-z_]*: (u8|i64)|-> u8'
look '1 derives without Debug, to be read for error enums' 'derive\(' 'Debug'
look '2 functions, to be read for twins' '\bfn [a-z_]+'
look '3 loops' '\b(while|loop|for) [a-z(]'
look '4 impls by hand of what a derive writes' 'impl.* (Clone|Copy|Default|PartialEq|Eq|PartialOrd|Ord|Hash|Debug|Drop) for'
look '4 printing' 'impl.*Display for|fn name\('
look '4 conversions by hand' ' as (u|i)[0-9s]|=> [0-9-]+,|sides\[[0-9]\]'
look '5 facts in contracts, to be counted by fact' '^ *(requires|ensures)'
look '5 parameters, to be counted by group' '\bfn [a-z_]+.*,.*\)'
look '6 buffers' 'Vec<|Vec::|\[[A-Z][a-z]+; '
look '7 switches' '\bmatch '
echo '== 8 files of answers, and the answers in each'
find crates/*/proofs -name Answers.antt | sort | xargs grep -cE '^pub [a-z_0-9A-Z-]+ : goal\.'

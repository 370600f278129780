#!/usr/bin/env bash
# Counts, in crates/*/src, the places that may still read like the older language: one search for each point of docs/DESIGN-PASS.md. A line
# that is found is a place to look at, and not yet a fault. With `-v` the lines themselves are printed.
#   tools/places.sh [-v] [FOLDER]
set -u
verbose=0
[ "${1:-}" = -v ] && { verbose=1; shift; }
cd "${1:-$(dirname "$0")/..}" || exit 1

show() { # TITLE FOUND
    printf '%4d  %s\n' "$(printf '%s' "$2" | grep -c '')" "$1"
    [ "$verbose" = 1 ] && [ -n "$2" ] && printf '%s\n' "$2" | sed 's/^/        /'
    return 0
}
look() { # TITLE PATTERN
    show "$1" "$(grep -rnE "$2" crates/*/src)"
}

look '1 a number as the error of a Result' 'Result<[^>]*, *u(8|16|32|64|size)>'
look '1 a flag as a field' '^ *(pub |pub\(crate\) )?[a-z_]+: bool,'
look '1 a number for a refusal, as a parameter' '\bnumber: u(8|16),?( |$)|, number: u(8|16),'
look '1 a refusal turned to text by hand' 'anyhow!\('
show '2 contracts that two functions or more share but for one name' "$(grep -rhoE '^ *ensures( [a-z_]+)? \{.*\}' crates/*/src | sed -E 's/^ *ensures( [a-z_]+)? //' | sort | uniq -c | awk '$1 >= 2 { $1 = ""; print }')"
look '2 one test asked of each row in a loop of its own' 'for i in 1\.\.16'
look '3 a loop over a range of numbers' '\bfor [a-z_]+ in [^{]*\.\.'
look '3 another loop' '\bwhile |\bloop \{'
look '4 a comparison or a copy written by hand' '^impl.* (PartialEq|Eq|PartialOrd|Ord|Clone|Copy|Debug)(<[^>]*>)? for'
look '4 a getter that takes its value apart' 'let [A-Z][A-Za-z]* \{.*\} = self;'
look '4 an arm that answers true or false' '=> (true|false),?$'
look '4 a refusal at no position made by hand' 'position: 0'
show '5 what three functions or more ask for' "$(grep -rhoE '^ *requires( [a-z_]+)? \{[^}]*\}' crates/*/src | sed -E 's/^ *requires( [a-z_]+)? //' | sort | uniq -c | awk '$1 >= 3 { $1 = $1 " times"; print }')"
look '5 the same error of four functions, said in each contract' '\(λ x\. x ≡ no_memory\)'
look '5 a block and its count as two parameters' 'block: &(.a )?\[u8\], count: u16'
look '6 an array of rows with flags' '\[Row; 16\]'
look '6 an element by its number' '[a-z_]\[[a-z_]+( as usize)?( \+ 1)?\]'
look '7 a step picked by a switch' 'Phase::|phase: Phase|enum Phase'
look '7 a table of functions' ': *fn\('
# what the searches above do not see, in the forms of today
look '1 a number for a refusal, as the last parameter' 'number: u8\)'
look '3 a closure over a range of numbers' '\([0-9a-z]+\.\.=?[0-9a-z]+\)\.'
look '6 an array of rows that may be missing' '\[Option<Row>; 16\]'
look '6 an element by a number that is converted' '\[(usize::from\(|[a-z_]+\.[a-z_.]+ as usize)'
printf '%4d  %s\n' "$(find crates/*/proofs -name '*.antt' -exec cat {} + | wc -l)" '8 lines of proofs'

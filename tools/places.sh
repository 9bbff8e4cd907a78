#!/bin/bash
# Lists the places in src/ that docs/DESIGN-PASS.md counts, point by point, one line for each; with -c the counts alone.
# tools/places.sh [-c] [DIR]: DIR holds crates/, . if none is given.
counts=false
if [ "$1" = -c ]; then counts=true; shift; fi
cd "${1:-.}" || exit 2

# The lines of the sources that a pattern finds, without comment lines.
code() { grep -rnE --include=*.rt "$1" crates/*/src | grep -vE '^[^:]*:[0-9]+: *//'; }

# The facts that stand in the contracts of three functions or more, asked or ensured, one line for each of them.
repeated() {
    grep -rhE --include=*.rt '^ *(requires|ensures)' crates/*/src | sed -E 's/^ *(requires|ensures) [a-z]* *//; s/ +$//' | sort |
        uniq -c | awk '$1 >= 3' | sort -rn
}

# A point, its heading, and its lines on standard input.
point() {
    lines=$(cat)
    number=$(printf '%s' "$lines" | grep -c .)
    echo "$1 $2: $number"
    $counts || printf '%s\n' "$lines" | sed '/^$/d; s/^/    /'
}

code '\b(kind|spread|letter|number): (u8|char)|Option<Option|-> Option<u8>|word: ""' | point 1a 'numbers and marks where an enum or an Option belongs'
code '\b[a-z]+: bool\b' | point 1b 'flags'
code 'let (Some|Ok)\(.*\) = .* else|\b(None|Err\(_\)) =>|if let (Some|Ok)\(' | point 1c 'Option and Result taken apart by hand'
code '^(pub |pub\(crate\) )?struct [A-Za-z]+;|^impl .*(Expression|Constant<.*>|Effect) for ' | point 2a 'types that may be twins'
code '^ *(pub |pub\(crate\) )?fn (suspend|resume|exclude|lift|kind_number|spread_number|kind_word|spread_word|single_letter|parse_category|count_variable|count_parts|best_beside|lowest_beside|parse_one|parse_two|print_under|print_layers|component_sum|component_multiple|full_masks|masks_in|variable_numbers|set_active|set_category)\b' | point 2b 'functions that may be twins'
code 'for [a-z_]+ in .*\.\.|\bwhile\b|\bloop\b' | point 3a 'loops over a range'
code 'for \([a-z_]+, [a-z_]+\) in .*enumerate' | point 3b 'loops that take an index along'
code '^ *for [a-z_]+ in [A-Za-z_.]+ \{' | point 3c 'loops that a method of the library might say'
code 'fn (from_number|from_letter|from_hundredths|number|letter|hundredths|[a-z]+_word|[a-z]+_letter|reason)\b|\.number\(\) ==|impl (PartialEq|PartialOrd|Ord|Clone|Default)\b|fn at_or_above' | point 4a 'conversion, order and printing by hand'
code '[]a-z0-9_)] as (u8|u16|u32|u64|usize|i64|i128)\b' | point 4b 'casts'
repeated | point 5a 'facts in the contracts of three or more functions'
code '^ *let _ = (sheet|rules|book);' | point 5b 'parameters that a function takes only for what its contract says'
code '\[[^][]*; [0-9A-Z]+\]|Vec<' | point 6a 'arrays and vectors'
code '\bcount: usize|\blen: usize|actions\(\)\.len\(\)\]' | point 6b 'lengths beside a buffer'
code 'enum Role|Role::|\bdyn \|\bfn\(|match (role|layer|self)\b' | point 7 'switches on which step to run'
grep -rhE --include=Answers.antt '^pub ' crates/*/proofs | point 8a 'answers'
find crates/*/proofs -name '*.antt' -exec cat {} + | point 8b 'lines of proof files'

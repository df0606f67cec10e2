#!/bin/sh
# Prints the candidates for each point of the design pass (docs/DESIGN-PASS.md), one to a line, and their number.
# With a folder as its argument it reads another checkout's crates.
cd "${1:-$(dirname "$0")/..}/crates" || exit 1

search() { # search TITLE PATTERN [PATTERN TO LEAVE OUT]: lines of the source that match
    found=$(grep -rnE --include='*.rt' -e "$2" */src | grep -vE '^[^:]*:[0-9]*: *//|ghost use' | grep -vE -e "${3:-^$}" | sort)
    printf '== %s: %s\n' "$1" "$(printf '%s' "$found" | grep -c .)"
    [ -z "$found" ] || printf '%s\n' "$found"
}

repeated() { # clauses that stand three times or more in one crate
    for crate in *; do
        grep -rhE --include='*.rt' '^ *(requires|ensures|ghost [a-z_]+:) ?.*\{.*\},?$' "$crate/src" 2>/dev/null |
            sed -E 's/^ *//; s/^(requires|ensures|ghost) ([a-z_]+:? )?/\1 /; s/\.(old|now|new)\b//g' | sort | uniq -c | sort -rn |
            awk -v c="$crate" '$1 >= 3 { n = $1; $1 = ""; print c ": " n " times" $0 }'
    done
}

search '1. Option or Result of our own, a number for a refusal, none told as a number' \
    '(-> (Result<)?u8|, u8>|refusal: u8|number: u8|returns? 0 if|, or 0\.$)' '\(u32, u8\)|fn any_rank'
search '1. flags beside a value' '\b(some_cf|free|greedy|withheld|filled): bool|Result<bool, AllocError>'
names=$(grep -rhoE --include='*.rt' '\bfn [a-z_0-9]+' */src | sort | uniq -c | awk '$1 > 1 { print $3 " " $1 }')
printf '== 2. twins, by name (the others by reading): functions of one name: %s\n%s\n' "$(printf '%s' "$names" | grep -c .)" "$names"
search '3. loops over numbers, and loops that count by hand' '(for [a-z_]+ in [^{]*\.\.|while |loop \{|\.enumerate\(\))' 'for (_|seed) in'
search '4. equality, copying, conversion and printing by hand' \
    '(fn (same|same_[a-z]+|copy|number|numbered|told|text|name|form_named)\b|if (passes|passed) \{ [A-Za-z:"1]+ \} else|^impl (From|fmt::Display|Error)\b.* for| as (u8|u16|u32|u64|u128|usize)\b)'
echo '== 5. clauses that stand three times or more in a crate'
repeated
search '6. arrays beside a length, arrays side by side, places by index' '(\[(u64|Row|Settled); ([0-9]|MOST_FLOWS)\]|len: usize|next: Option<usize>)' 'const '
search '7. switches on a step, a kind or a column' '(match (self|form|column|call|request\.asked|self\.[a-z]+|\(.*\)) \{|matches!\((call|moments|asking)|if (free|greedy|self\.free) )'
proofs=$(find */proofs -name '*.antt' -not -path '*/out/*')
echo "== 8. answers and invariants of proofs: $(cat $proofs | grep -cE '^(pub|abbrev pub) [^:]+ : goal\.'), lemmas: $(cat $proofs | grep -E '^ *(pub )?[^ :]+ : ' | grep -vc ': goal\.'), lines: $(cat $proofs | wc -l)"

#!/usr/bin/env bash
# The places that docs/DESIGN-PASS.md counts, by form: with no argument their numbers, with a number
# from 1 to 8 the lines of that form.
set -uo pipefail
cd "$(dirname "${BASH_SOURCE[0]}")/.."

sources() { find crates -path '*/src/*' -name '*.rt' -not -path '*/out/*' | sort; }
lines() { sources | xargs grep -HnE "$@" | grep -vE '^[^:]*:[0-9]+: *//'; }

# 1. Declared enums; options of nothing; numbers in place of kinds; answers wrapped again by hand.
form1() {
    lines '^ *(pub |pub\(crate\) )?enum '
    lines 'Option<\(\)>|(word|number|kind): u8'
    lines '(Ok|Some)\([a-z_]+\) => (Ok|Some)\([a-z_]+\)|Err\([a-z_]+\) => Err\(|None => (None|Err\()|if let Err\(|else \{$' |
        grep -E '=>|if let Err|let (Ok|Some)\('
}

# 2. Twins: pairs of places that the tool `duplicates` finds, six lines of one shape, over a copy with
# the ending that it reads.
form2() {
    local copy
    copy=$(mktemp -d)
    sources | while read -r f; do
        mkdir -p "$copy/$(dirname "$f")"
        cp "$f" "$copy/${f%.rt}.rs"
    done
    duplicates --repo "$copy" --most 200 | grep -E '^D[0-9]+ '
    rm -rf "$copy"
}

# 3. Loops over an index or a count.
form3() { lines '^ *(for [a-z_]+ in [^ ]*\.\.|while |loop )'; }

# 4. Comparisons by a function, casts, texts handed out of a match, conversions to a number.
form4() {
    lines '\bsame\('
    lines ' as (u8|u16|u32|i32|i64|usize|u64)\b'
    lines "fn .*-> &'static (str|\[u8\])"
    lines 'fn (number|from|eq|cmp|clone|fmt)\('
}

# 5. Clauses that stand three times or more, with their counts; parameters that travel together.
form5() {
    sources | xargs grep -hE '^ *(requires|ensures)' | sed -E 's/^ +//' | sort | uniq -c | sort -rn | awk '$1 >= 3'
    lines 'page: &mut \[u8\], at: usize'
    lines 'fn .*(text|rest): &(.a )?\[u8\], line: u32'
    sources | xargs grep -HnE -A 2 'fn .*\($|outline: &Outline,' | grep -E 'seen: &'
}

# 6. Tables of a fixed size.
form6() { lines '\[[^];]+; ?[0-9A-Z_]+\]' | grep -vE 'static '; }

# 7. Chains of tests that choose what to do or to make.
form7() { lines '(if|else if) (same\(|k < split|.* == b")|fn (start|poll|halt)\(&mut self, k: u8\)'; }

# 8. Answers and lemma files, by crate.
form8() {
    local c
    for c in $(sed -nE 's/^([a-z_]+):.*/\1/p' crates.txt); do
        echo "$c: $(find "crates/$c/proofs" -name '*.antt' -exec cat {} + 2>/dev/null | grep -cE '^pub [a-z]') answers and lemmas, $(find "crates/$c/proofs" -name '*.antt' -exec cat {} + 2>/dev/null | wc -l) lines"
    done
}

if [[ $# -eq 0 ]]; then
    for n in 1 2 3 4 5 6 7; do
        echo "$n: $(form$n | wc -l)"
    done
    form8
else
    "form$1"
fi

#!/usr/bin/env bash
# The places that docs/DESIGN-PASS.md counts, point by point: tools/design.sh [COMMIT]; without a commit, of the files as
# they stand. With -l before it, the places themselves.
set -u
list=no
if [ "${1:-}" = -l ]; then
    list=yes
    shift
fi
cd "$(dirname "$0")/.." || exit 2
if [ $# -gt 0 ]; then
    tree=$(mktemp -d) || exit 2
    trap 'rm -rf "$tree"' EXIT
    git archive "$1" crates | tar -x -C "$tree" || exit 2
    cd "$tree" || exit 2
fi
# POINT WHAT PATTERN: the lines of src/ that have the pattern
count() {
    local found
    found=$(grep -rnE --include='*.rt' "$3" crates/*/src | grep -vE '^[^:]*:[0-9]+: *//')
    printf '%s %-62s %5s\n' "$1" "$2" "$(printf '%s' "$found" | grep -c .)"
    [ "$list" = yes ] && printf '%s\n' "$found" | sed 's/^/      /'
}
count 1 'variants of own enums that mean none, short or refused' '^ +(Refused|Short|Neither|Other|Nothing)\b.*[,{]$'
count 1 'flags beside a value, in structs' '^ +(pub )?(some|digits|ok|found|begun|last|over|more|seen|alone): bool,'
count 1 'numbers of refusals: constants, uses, results, fields' 'number::[A-Z]|\bnumber: u64,|fn \w*refusal\w*\(.*-> u64|fn \w*refusal\w*\($'
count 1 'numbers of kinds: constants' 'pub const (PAGE|BLOCK|STATE|COMMIT|ACK|ACTIVATION|WIDE_PAGE|WIDE_COMMIT): u32'
count 3 'loops by while' '^ *while '
count 4 'truth values returned one by one' '^ *return (true|false);|=> (true|false),'
count 4 'fields copied into a variable of their name' '^ +let (mut )?(\w+) = \w+\.\2;'
count 4 'parts of a state replaced by a function with_..' 'fn with_\w+'
count 4 'conversions by hand' 'fn (\w+_of|\w+_word|word_of|field|field16|flag_of|bytes[24]|get[24])\('
count 6 'a length or place beside a buffer, in structs' '^ +(pub )?(length|count|written|linked|start|end|from|got|used): usize,'
count 7 'enums that say which step to run' '^pub enum (Repeated|Work)|Repeated::'
# 2: functions and types of one name in two or more modules
twins=$(grep -rhoE --include='*.rt' '\b(fn|struct|enum) \w+' crates/*/src | sort | uniq -cd | awk '{print $1 " " $2 " " $3}')
printf '%s %-62s %5s\n' 2 'names that two or more functions, structs or enums have' "$(printf '%s' "$twins" | grep -c .)"
[ "$list" = yes ] && printf '%s\n' "$twins" | sed 's/^/      /'
# 5: functions of seven or more parameters
many=$(grep -rn -A14 --include='*.rt' -E '\bfn \w+' crates/*/src | python3 -c '
import re, sys
text = sys.stdin.read()
lines = [re.sub(r"^[^ ]*?[:-](\d+)[:-]", "", line) for line in text.split("\n")]
seen = set()
for m in re.finditer(r"fn (\w+)(<[^(]*>)?\(([^)]*)\)", "\n".join(lines)):
    n = len(re.findall(r"\w+: ", m.group(3)))
    if n >= 7 and (m.group(1), m.group(3)) not in seen:
        seen.add((m.group(1), m.group(3)))
        print(m.group(1), n)
')
printf '%s %-62s %5s\n' 5 'functions of seven or more parameters' "$(printf '%s' "$many" | grep -c .)"
[ "$list" = yes ] && printf '%s\n' "$many" | sed 's/^/      /'
# 8: answers, and answers that only rename what they are given
printf '%s %-62s %5s\n' 8 'files of answers' "$(find crates -name Answers.antt -not -path '*/out/*' | grep -c .)"
printf '%s %-62s %5s\n' 8 'lines of answers that only rename (let a = c in)' "$(grep -rhE '^ *let \w+ = c in$' crates --include=Answers.antt | grep -c .)"

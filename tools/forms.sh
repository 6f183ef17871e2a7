#!/bin/bash
# forms.sh [COMMIT]: places of each point in crates/*/src
B=${1:-HEAD}
c() { git grep -hE "$1" $B -- 'crates/*/src/*.rt' | wc -l; }
echo "1 variants of own Result-shaped enums: $(c '^    (Accepted|Refused|Shown|Hidden|Octets|Failed|Asks|Wrong)\b')"
echo "1 structs with an answer beside a value: $(c '^pub struct (Reading|Surveyed|Choice|Rebuilt|Parsed|Joined)\b')"
echo "1 numbers of refusals: $(c 'Refused\(([0-9]+|no|e|number),|Hidden\(([0-9]+|e),|unplaced\([0-9]|[5-8] \* BAD|refused\((18|no),|return 1[23];|^    12$')"
echo "1 values that stand for none: $(c 'most \+ 1;|return 2147483648|(255|300|2147483647|15) < |=> 16,|= OVER|^    OVER|!= OVER|== OVER|NO_LINE,')"
echo "1 arms on a letter or a number: $(c "^ +(b'[^']+'|[0-9]+) => ")"
echo "3 while: $(c '^ *while ')"
echo "3 for: $(c '^ *for ')"
echo "4 as: $(git grep -hoE ' as (u8|u32|u64|usize|i32|i64)\b' $B -- 'crates/*/src/*.rt' | wc -l)"
echo "4 leaves' conversions: $(git grep -hoE 'leaves::(wide|wide64|octet|octet64|less|less64|front)\(' $B -- 'crates/*/src/*.rt' | wc -l)"
echo "4 derives: $(git grep -hE '^ *#\[derive' $B -- 'crates/*/src/*.rt' | wc -l); impl From|TryFrom|Display|Word: $(c '^ *impl.*(From|TryFrom|Display|Word)\b.* for ')"
echo "5 buf: &mut [u8; 4096]: $(c 'buf: &mut \[u8; 4096\]')"
for k in 'length s.now < (65_536|256)' 'length numbers.(old|now) ≡ SLOTS' 'length (self\.now\.)?line.now ≤ 16384' 'base ≤ 255' 'length keys.now ≤ 1000' 'Fit '; do echo "5 clause $k: $(git grep -hE "requires.*$k" $B -- 'crates/*/src/*.rt' | wc -l)"; done
echo "6 array types of bytes: $(git grep -hoE '\[u8; (4096|300|255|MOST|ROOM|LONGEST)\]' $B -- 'crates/*/src/*.rt' | wc -l)"
echo "8 files of answers: $(git ls-tree -r --name-only $B | grep -c 'Answers.antt$'), of invariants: $(git ls-tree -r --name-only $B | grep -c 'Invariants.antt$')"
echo "8 lines under proofs/F/: $(git ls-tree -r --name-only $B | grep -E 'crates/[^/]+/proofs/.*(Answers|Invariants).antt$' | while read f; do git show $B:$f; done | wc -l)"
echo "8 answers that are one tactic: $(git grep -hE '^[a-z_A-Z0-9-]+ c = (search rules|tt|omega arith)$' $B -- 'crates/*/proofs/*' | wc -l)"
echo "lines of src: $(git ls-tree -r --name-only $B | grep -E 'crates/[^/]+/src/.*\.rt$' | while read f; do git show $B:$f; done | wc -l); functions: $(git grep -hE '^ *(pub )?(extern "C" )?fn [a-z_0-9]+' $B -- 'crates/*/src/*.rt' | wc -l)"

#!/bin/sh
# The counts of docs/DESIGN-PASS.md, over the sources of crates/*/src of the folder in which it is run.
S="crates/*/src"
c() { echo "$1: $(eval "$2" | wc -l)"; }
c 1a "grep -rnE '^ *(pub(\([a-z]+\))? )?enum ' $S"
c 1b "grep -rnE 'Result<(Result|Option)<' $S"
c 1c "grep -rnE '(number|kind|code|cause|layer|axis): u(8|16|32)\b' $S"
c 1d "grep -rnE '[a-z_]+: bool\b' $S"
c 2 "grep -rnE 'fn [a-z_]*(variant|part)s?(_[a-z]+)?[(<]' $S"
c 3 "grep -rnE '^ *(while |loop )|^ *for .* in .*\.\.|\.enumerate\(\)' $S"
c 4a "grep -rnE 'impl.* (fmt::Display|From<.*>|TryFrom<.*>|PartialEq|Eq|Ord|Clone|Copy|Debug) for ' $S"
c 4b "grep -rnE '(Ok\(.*\) => Ok\(|Err\(.*\) => Err\(|None => (None|Err)|=> Some\(|Some\(.*\) => Ok)' $S"
c 5a "grep -rnE '(131070|131072|262144|1048576|2 \^ 32|SmallTotals|Small [0-9]|Entries look)' $S"
c 5b "grep -rnE 'table: &\[u8\], key: Key|table: &\[u8\],$|found: Option<F::Found>,|out: &mut W,|by: u32,' $S"
c 6 "grep -rnE '\[u(8|16|32); [A-Z]|&mut \[|(count|index|copies): (usize|u16|u32)\b' $S"
c 7 "grep -rnE 'enum Way|way: Way|Way::|dyn |: fn\(' $S"
c 8 "find crates -path '*/proofs/*' -name Answers.antt -not -path '*/out/*' -not -path '*/target/*'"
echo "8 lines: $(find crates -path '*/proofs/*' -name '*.antt' -not -path '*/out/*' -not -path '*/target/*' | xargs cat | wc -l)"

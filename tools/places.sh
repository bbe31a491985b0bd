#!/bin/sh
# Lists the places in src/ where a form of the older language may stand, point by point.
# Usage, from the root: tools/places.sh [POINT]
src() { grep -rnE "$1" crates/*/src --include='*.rt'; }
point() {
  case $1 in
    # A number that stands for a case or for nothing.
    1) src 'number\(\) ==|if number == |^ +edges\.len\(\)$|unwrap_or\(|^ +Type::Bool$|^ +return Value::Bool\(false\)' ;;
    # Two functions, types or arms that differ in a type, a size or a constant.
    2) src 'macro_rules|fn (read_values|read_expressions|check_expressions|check_records|judge_arguments|judge_records|fill|read_line|run|main|read_checked|tell|tell_walk)[(<]|struct (Counts|Declared|Numbering) ' ;;
    # Loops over a range, over an index, on a counter or a running value.
    3) src '^ +for .* in .*(\.\.|enumerate)|^ +while |^ +found \+= 1|^ +sum = |edges\.push' ;;
    # Equality, order, conversion and text by hand.
    4) src 'fn (from_code|code|same|is_of|is_entry)\(|code\(\) ==|as u8 ==|format!\(' ;;
    # A clause on a parameter that stands in three functions or more, and parameters that travel together.
    5) src 'requires.*(length bytes\.now ≤ 8192|33 ≤ length sheet|Bounded|Low |Fits|InOrder)|\bat: usize|channels: usize, streams: usize' ;;
    # Arrays of a fixed size, and a length beside a buffer.
    6) src '(: |-> |Row = )&?(mut )?\[.*; (32|33|34|48|64|NODES|STREAMS|RINGS|ROWS|LEAST_SHEET)\]|let mut (filled|room) =' ;;
    # A choice of the step to run.
    7) src 'match report|read_(values|expressions)\(' ;;
    # Answers, and lemmas.
    8) grep -rcE '^ *pub [A-Za-z_0-9-]+ :' crates/*/proofs --include='*.antt' ;;
  esac
}
for p in ${1:-1 2 3 4 5 6 7}; do
  echo "point $p: $(point "$p" | wc -l) places"
  point "$p"
done
echo "point 8: $(point 8 | awk -F: '{s += $2} END {print s}') answers and lemmas"

#!/bin/bash
# Counts the instructions of the plain program and of judge_packed and judge_chained on made texts, and prints ratios.
# Usage: bench/measure.sh [SEED]    (BIN: where the two programs are; without it they are built)
set -euo pipefail
cd "$(dirname "$0")/.."
seed=${1:-1}
work=target/bench
mkdir -p "$work"
if [ -z "${BIN:-}" ]; then
    BIN=$work/bin
    mkdir -p "$BIN"
    for program in judge_packed judge_chained; do
        (cd "crates/$program" && rt run </dev/null >/dev/null 2>&1)
        cp "crates/$program/out/$program" "$BIN/"
    done
fi
rustc -O --edition 2021 -o "$work/plain" bench/plain.rs
python3 bench/make_text.py --seed "$seed" >"$work/long.txt"
python3 bench/make_text.py --seed "$seed" --steps 2000 --strikes 0.2 >"$work/steps.txt"
python3 bench/make_text.py --seed "$seed" --longest 64 >"$work/broad.txt"
python3 bench/make_text.py --seed "$seed" --steps 1500 --strikes 0 --longest 4 >"$work/keeping.txt"
: >"$work/empty.txt"

# count PROGRAM TEXT: sets `line` to what it prints, `count` to its instructions
count() {
    local profile="$work/$(basename "$1").$2.callgrind"
    line=$(valgrind --tool=callgrind --callgrind-out-file="$profile" "$1" <"$work/$2.txt" 2>"$work/valgrind.log" || true)
    count=$(awk '/^(summary|totals):/ { n = $2 } END { print n }' "$profile")
}

same=yes
printf '%-8s %-14s %-14s %14s %7s %18s %7s\n' text program verdict instructions ratio 'without start-up' ratio
for text in long steps broad keeping; do
    for program in "$work/plain" "$BIN/judge_packed" "$BIN/judge_chained"; do
        count "$program" empty
        start=$count
        count "$program" "$text"
        net=$((count - start))
        if [ "$program" = "$work/plain" ]; then
            plain=$count plain_net=$net plain_line=$line
        fi
        [ "$line" = "$plain_line" ] || same=no
        printf '%-8s %-14s %-14s %14d %7.2f %18d %7.2f\n' "$text" "$(basename "$program")" "$line" "$count" \
            "$(echo "scale=4; $count / $plain" | bc)" "$net" "$(echo "scale=4; $net / $plain_net" | bc)"
    done
done
echo "all programs print the same line: $same"
[ "$same" = yes ]

#!/bin/sh
# Instructions of allocate, release, look-up and list, each without its audit, and of the Rust's, in one run of one driver that gives both the same
# requests and compares the answers. Two loads: churn (2048 x 2048, alignments 4 x 8, two columns, sides 8 to 120, about 300 live items granted and released)
# and labels (alignment 1, one column, sides 8 to 40, 2,000 live). SEED=N gives other requests of the same kind. Needs rt, rustc, valgrind and awk; builds
# into target/bench.
set -eu
here=$(cd "$(dirname "$0")" && pwd)
top=$(cd "$here/.." && pwd)
for tool in rt rustc valgrind callgrind_annotate awk; do
    command -v $tool >/dev/null || { echo "bench: $tool is not there" >&2; exit 2; }
done
cd "$top"
tools/built bench_calls
out=target/bench
mkdir -p $out/plain
# The Rust as a release build has it. The oracle's own build has overflow checks on, which would count for the Rust.
given() { rustc --edition 2018 --cap-lints allow -O --crate-type rlib "$@"; }
given --crate-name euclid --out-dir $out oracle/shims/euclid.rs
given --crate-name svg_fmt --out-dir $out oracle/shims/svg_fmt.rs
given --crate-name etagere --extern euclid=$out/libeuclid.rlib --extern svg_fmt=$out/libsvg_fmt.rlib --out-dir $out/plain oracle/etagere/src/lib.rs
rustc --edition 2021 --cap-lints allow -O -L $out -L $out/plain --extern etagere=$out/plain/libetagere.rlib -L target/staticlib -l static=bench_calls -o $out/steps.bin bench/steps.rs
for load in ${*:-churn labels}; do
    calls=$("$out/steps.bin" "$load" ${SEED:-})
    valgrind --tool=callgrind --callgrind-out-file=$out/steps.$load "$out/steps.bin" "$load" ${SEED:-} >/dev/null 2>&1
    callgrind_annotate --inclusive=yes --threshold=100 $out/steps.$load | tr -d , | awk -v load="$load" -v calls="$calls" '
        BEGIN { split("allocate release look_up list", name); split(calls, count) }
        { for (k in name) {
            if (!ours[k] && $0 ~ ":bench_" name[k] "( |$)") ours[k] = $1
            if (!theirs[k] && $0 ~ "::rust_" name[k] "( |$)") theirs[k] = $1
        } }
        END { for (k = 1; k <= 4; k++) {
            a = ours[k] / count[k]; b = theirs[k] / count[k]
            printf "%-7s %-9s %6d calls: %9.1f instructions, the Rust %9.1f, ratio %.2f\n", load, name[k], count[k], a, b, a / b
        } }'
done

#!/bin/sh
# Instructions of the audit, of the public calls, audit and all, and of a batch, in the whole library as hosts link it, and of the Rust, plain and with its
# `checks`: bench/whole.sh [calls] [growth] [batch] [LOAD...]. One driver (bench/whole.rs) gives all the same requests and stops where an answer differs. SEED=N
# gives other requests of the same kind. A ratio over what it is held against is said, and is no failure. Growth takes some minutes, since the Rust checks at each
# grant. Needs rt, rustc, valgrind and awk; builds into target/bench.
#
# Loads: present (16384 x 16384, alignment 1, 350 granted, 50 of them released at random), churn and labels (those of bench/steps.sh), half (labels, then every
# second live item released) and uneven (churn with alignments 6 x 10).
set -eu
here=$(cd "$(dirname "$0")" && pwd)
top=$(cd "$here/.." && pwd)
for tool in rt rustc valgrind callgrind_annotate awk; do
    command -v $tool >/dev/null || { echo "bench: $tool is not there" >&2; exit 2; }
done
loads= batch= growth=
[ $# -gt 0 ] || set -- calls growth batch
for what; do
    case $what in
        calls) loads="present churn labels half uneven" ;;
        batch) batch="0 1 2 10 100 1000" ;;
        growth) growth="30:35 300:350 3000:3500 30000:35000 30:30000" ;;
        present | churn | labels | half | uneven) loads="$loads $what" ;;
        *) echo "bench: $what is nothing to measure" >&2; exit 2 ;;
    esac
done
cd "$top"
hosts/library >&2
out=target/bench
mkdir -p $out
# The Rust as a release build has it. The oracle's own build has overflow checks on, which would count for the Rust.
given() { rustc --edition 2018 --cap-lints allow -O --crate-type rlib --out-dir $out "$@"; }
given --crate-name euclid oracle/shims/euclid.rs
given --crate-name svg_fmt oracle/shims/svg_fmt.rs
etagere() { given --crate-name "$@" --extern euclid=$out/libeuclid.rlib --extern svg_fmt=$out/libsvg_fmt.rlib oracle/etagere/src/lib.rs; }
etagere etagere_plain
etagere etagere_checks --cfg 'feature="checks"'
host() { rustc --edition 2021 -O -L $out "$@"; }
host --crate-type rlib --crate-name plytimber --out-dir $out hosts/rust/plytimber/src/lib.rs
host --extern plytimber=$out/libplytimber.rlib --extern etagere_plain=$out/libetagere_plain.rlib --extern etagere_checks=$out/libetagere_checks.rlib \
    -L target/staticlib -l static=plytimber -o $out/whole.bin bench/whole.rs

# Runs the driver under callgrind, which writes a file for each part of the run. $told is what the driver says of its calls, $at names the files: in $at.2 are
# the instructions of the calls, in $at.4 those of the last release and the audit, each by function with all that it calls.
run() { # the driver's arguments
    told=$("$out/whole.bin" "$@")
    at=$out/whole.$(echo "$*" | tr ' ' -)
    rm -f "$at" "$at".*
    valgrind --tool=callgrind --callgrind-out-file="$at" --dump-before='whole::part*' "$out/whole.bin" "$@" >"$at.log" 2>&1 || { cat "$at.log" >&2; exit 1; }
    mv "$at" "$at.callgrind.4"
    mv "$at.2" "$at.callgrind.2"
    for part in 2 4; do
        callgrind_annotate --inclusive=yes --threshold=100 "$at.callgrind.$part" | tr -d , >"$at.$part"
    done
}
# In $told: calls of allocate, release, look-up and list, requests that were refused, live items, used shelf rows, used item rows. `is` says whether a line is
# that of a function, `commas` writes a number with so many digits behind the point, `held` what a ratio is held against, `found` stops where a function has no count.
common='BEGIN { split(told, n); split("allocate release look_up list", name) }
    function is(function_name) { return $0 ~ ":" function_name "( |$)" }
    function commas(number, digits,    text, point) {
        text = sprintf("%." digits "f", number)
        for (point = (digits ? length(text) - digits - 1 : length(text)) - 3; point > 0; point -= 3) text = substr(text, 1, point) "," substr(text, point + 1)
        return text
    }
    function held(ratio, most) { return most == "" ? "" : most (ratio > most ? ": over" : "") }
    function found(count, what) {
        if (!count) { print "bench: no instructions of " what " in the counts" >"/dev/stderr"; exit 1 }
        return count
    }'

if [ -n "$loads" ]; then
    echo "A public call, audit and all"
    echo
    echo "| load | call | calls | instructions | the Rust with checks | ratio | limit | the Rust plain |"
    echo "|---|---|---|---|---|---|---|---|"
    : >$out/audits
    for load in $loads; do
        run "$load"
        case $load in
            present) goal=1.05 limit= ;;
            churn) goal=1.15 limit=1.1 ;;
            labels) goal=1.05 limit=1.1 ;;
            half) goal=1.2 limit= ;;
            *) goal='' limit= ;;
        esac
        awk -v load="$load" -v told="$told" -v limit="$limit" "$common"'
            is("etagere_checks::.*::check") { check = $1 }
            { for (k in name) {
                if (is("plytimber_" name[k])) ours[k] = $1
                if (is("whole::(plain::)?" name[k])) plain[k] = $1
                if (is("whole::checks::" name[k])) checks[k] = $1
            } }
            END { for (k = 1; k <= 4; k++) if (n[k]) {
                a = found(ours[k], name[k]) / n[k]; b = found(plain[k], "the Rust, " name[k]) / n[k]
                c = k < 3 ? found(checks[k], "the Rust with checks, " name[k]) / n[k] : b + found(check, "the check") / (n[1] - n[5] + n[2])
                sub("_", "-", name[k])
                printf "| %s | %s | %s | %s | %s%s | %.2f | %s | %s |\n", load, name[k], commas(n[k], 0), commas(a, 1), commas(c, 1), k < 3 ? "" : " *", a / c, k < 3 ? held(a / c, limit) : "", commas(b, 1)
            } }' "$at.2"
        awk -v load="$load" -v told="$told" -v goal="$goal" "$common"'
            is("plytimber_audit") { ours = $1 }
            is("etagere_checks::.*::check") { check = $1 }
            END { found(ours, "the audit"); found(check, "the check")
                printf "| %s | %s | %s | %s | %s | %s | %.2f | %s |\n", load, commas(n[6], 0), n[7], commas(n[8], 0), commas(ours, 0), commas(check, 0), ours / check, held(ours / check, goal) }' "$at.4" >>$out/audits
    done
    echo
    echo "* The Rust checks nothing here: a check is added to its call, of the mean cost on this load."
    echo
    echo "One audit of the atlas that these calls leave"
    echo
    echo "| load | live items | shelf rows | item rows | instructions | the Rust's check | ratio | goal |"
    echo "|---|---|---|---|---|---|---|---|"
    cat $out/audits
    echo
fi
if [ -n "$growth" ]; then
    echo "One audit as the atlas grows"
    echo
    echo "| granted | live items | shelf rows | item rows | instructions | for each row | the Rust's check | ratio |"
    echo "|---|---|---|---|---|---|---|---|"
    for case in $growth; do
        live=${case%:*} granted=${case#*:}
        run grow "$live" "$granted"
        awk -v granted="$granted" -v told="$told" "$common"'
            is("plytimber_audit") { ours = $1 }
            is("etagere_checks::.*::check") { check = $1 }
            END { found(ours, "the audit"); found(check, "the check")
                printf "| %s | %s | %s | %s | %s | %.1f | %s | %.2f |\n", commas(granted, 0), commas(n[6], 0), n[7], commas(n[8], 0), commas(ours, 0), ours / (n[7] + n[8]), commas(check, 0), ours / check }' "$at.4"
    done
    echo
fi
if [ -n "$batch" ]; then
    echo "A request in a batch"
    echo
    echo "| requests in one | instructions | the Rust plain | ratio | limit | the Rust with checks | ratio |"
    echo "|---|---|---|---|---|---|---|"
    single= pays=
    for size in $batch; do
        run batch "$size"
        case $size in
            100) limit=1.5 ;;
            1000) limit=1.1 ;;
            *) limit= ;;
        esac
        each=$(awk -v told="$told" "$common"'is("plytimber_(batch|allocate|release)") { all += $1 } END { printf "%.1f", found(all, "the calls") / (n[1] + n[2]) }' "$at.2")
        awk -v size="$size" -v told="$told" -v each="$each" -v limit="$limit" "$common"'
            is("whole::plain::(allocate|release)") { plain += $1 }
            is("whole::checks::(allocate|release)") { checks += $1 }
            END { plain = found(plain, "the Rust") / (n[1] + n[2]); checks = found(checks, "the Rust with checks") / (n[1] + n[2])
                printf "| %s | %s | %s | %.2f | %s | %s | %.2f |\n", size ? commas(size, 0) : "no batch, single calls", commas(each, 1), commas(plain, 1), each / plain, held(each / plain, limit), commas(checks, 1), each / checks }' "$at.2"
        if [ "$size" = 0 ]; then
            single=$each
        elif [ -z "$pays" ] && awk "BEGIN { exit !($each < $single) }"; then
            pays=$size
        fi
    done
    echo
    echo "A batch pays from $pays requests on."
fi

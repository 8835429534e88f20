#!/bin/sh
# Instructions of save without its audit, and of load beside its audit, for each block of an image: bench/images.sh [COLUMNS | COLUMNS:SHELF_ROWS:ITEM_ROWS | small]...
# An atlas of so many empty columns, with freed rows up to so many used rows; 31, 310 and 3,100 columns if nothing is named. `small` takes every image of three
# blocks, by its rows, and tells the dearest: some minutes. Needs rt, rustc, valgrind and awk; builds into target/bench.
set -eu
here=$(cd "$(dirname "$0")" && pwd)
top=$(cd "$here/.." && pwd)
for tool in rt rustc valgrind callgrind_annotate awk; do
    command -v $tool >/dev/null || { echo "bench: $tool is not there" >&2; exit 2; }
done
cd "$top"
tools/built bench_images
out=target/bench
mkdir -p $out
rustc --edition 2021 --cap-lints allow -O -L target/staticlib -l static=bench_images -o $out/images.bin bench/images.rs
# One image: columns, used shelf and item rows, blocks; instructions of save, of load, of its audit.
count() { # columns, shelf rows, item rows
    blocks=$("$out/images.bin" "$@")
    valgrind --tool=callgrind --callgrind-out-file=$out/images.callgrind "$out/images.bin" "$@" >/dev/null 2>&1
    callgrind_annotate --inclusive=yes --threshold=100 $out/images.callgrind | tr -d , | awk -v image="$* $blocks" '
        !save && /:bench_save( |$)/ { save = $1 }
        !load && /:bench_load( |$)/ { load = $1 }
        !audit && /:bench_audit( |$)/ { audit = $1 }
        END { print image, save, load, audit }'
}
tell() { awk '{ printf "%5d columns, %4d shelf rows, %4d item rows, %3d blocks: save %6d, %5.1f a block; load %6d, its audit %6d, beside it %5.1f a block\n", $1, $2, $3, $4, $5, $5 / $4, $6, $7, ($6 - $7) / $4 }'; }
for what in ${*:-31 310 3100}; do
    case $what in
        small)
            shelves=1
            while [ $shelves -le 31 ]; do
                items=1
                while [ $items -le 28 ]; do
                    count 1 $shelves $items
                    items=$((items + 1))
                done
                shelves=$((shelves + 1))
            done >$out/images.small
            awk '{ print $5 / $4, $0 }' $out/images.small | sort -n | tail -n 1 | cut -d ' ' -f 2- | tell
            awk '{ print ($6 - $7) / $4, $0 }' $out/images.small | sort -n | tail -n 1 | cut -d ' ' -f 2- | tell
            echo "the dearest to save, and to load, of $(wc -l <$out/images.small) images of three blocks"
            ;;
        *:*:*) count $(echo "$what" | tr : ' ') | tell ;;
        *) count "$what" "$what" "$what" | tell ;;
    esac
done

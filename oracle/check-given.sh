#!/bin/sh
# Is the Rust in etagere/ what was given? The sums of the given files stand in etagere/GIVEN.sha256;
# lib.rs must have its sum once the two lines that were cut are put back.
# With a folder that holds the given files, compares with those too: check-given.sh FOLDER
set -eu
folder=
[ $# -eq 0 ] || folder=$(cd "$1" && pwd)
cd "$(dirname "$0")/etagere"

if command -v sha256sum >/dev/null; then sum() { sha256sum | cut -d ' ' -f 1; }
elif command -v shasum >/dev/null; then sum() { shasum -a 256 | cut -d ' ' -f 1; }
else echo "check-given: sha256sum or shasum is needed" >&2; exit 2
fi

as_given() {
    case $1 in
        src/lib.rs) sed -f uncut.sed src/lib.rs ;;
        *) cat "$1" ;;
    esac
}

bad=0
for name in src/allocator.rs src/lib.rs LICENSE-MIT LICENSE-APACHE; do
    want=$(awk -v name="$name" '$2 == name { print $1 }' GIVEN.sha256)
    if [ -z "$want" ] || [ "$(as_given "$name" | sum)" != "$want" ]; then
        echo "check-given: $name is not what was given" >&2
        bad=1
    fi
    if [ -n "$folder" ] && ! as_given "$name" | cmp - "$folder/$name"; then bad=1; fi
done
cut=$(sed -f uncut.sed src/lib.rs | diff - src/lib.rs | grep '^[<>]' || true)
if [ "$cut" != '< mod bucketed;
< pub use bucketed::*;' ]; then
    echo "check-given: lib.rs is cut by other lines than the two that name bucketed" >&2
    bad=1
fi
[ $bad -eq 0 ] && echo "etagere: allocator.rs, lib.rs (but for the two lines cut) and the licences are as given"
exit $bad

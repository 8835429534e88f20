# Read by the scripts here: how the Rust is built. Expects $here, the folder of this file.
out=$(cd "$here/.." && pwd)/target/oracle

need_rustc() {
    if ! command -v rustc >/dev/null; then
        echo "oracle: rustc is not there. The oracle runs the Rust allocator, so it needs a Rust compiler" >&2
        echo "oracle: (rustc alone; no cargo, no network). It was last built with rustc 1.95." >&2
        exit 2
    fi
}

# The given source and the shims, in the source's edition. Its lints are not ours to mend.
# Overflow stops it: inside 01's limits it must never meet one.
given() {
    rustc --edition 2018 --cap-lints allow -O -C overflow-checks=on "$@"
}

shims() {
    given --crate-type rlib --crate-name euclid --out-dir "$out" "$here/shims/euclid.rs"
    given --crate-type rlib --crate-name svg_fmt --out-dir "$out" "$here/shims/svg_fmt.rs"
}

# etagere LIB.RS, then how to build it
etagere() {
    source=$1
    shift
    given --crate-name etagere --extern euclid="$out/libeuclid.rlib" --extern svg_fmt="$out/libsvg_fmt.rlib" "$@" "$source"
}

# ours FILE.rs FOLDER, then how to build it; FOLDER holds the etagere to build on
ours() {
    source=$1
    libs=$2
    shift 2
    rustc --edition 2021 -O -C overflow-checks=on -L "$out" -L "$libs" "$@" "$source"
}

# driver FOLDER [SOURCES]: the script language and the driver, on the etagere in FOLDER
driver() {
    ours "${2:-$here}/script.rs" "$1" --crate-type rlib --out-dir "$1"
    ours "${2:-$here}/driver.rs" "$1" -o "$1/answer"
}

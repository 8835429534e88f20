#!/bin/sh
# Joins the stored cases of oracle/cases to this crate's stdin and stdout, after the generated scripts that stand there (README.md). An `n` begins
# anew; a refused one leaves no atlas, so it stands before a case that starts without one. The case whose last line has no newline is the last. The
# empty case is what script_main is run on.
set -eu
here=$(cd "$(dirname "$0")" && pwd)
cases=$here/../../oracle/cases
head -n 25202 "$here/stdin" >"$here/stdin.new"
head -n 35526 "$here/stdout" >"$here/stdout.new"
join() {
    cat "$cases/$1.in" >>"$here/stdin.new"
    cat "$cases/$1.out" >>"$here/stdout.new"
}
start_without_atlas() {
    echo 'n 0 0 0 0 0 0' >>"$here/stdin.new"
    echo 'no 1' >>"$here/stdout.new"
    join "$1"
}
start_without_atlas before
start_without_atlas reading
for file in "$cases"/*.in; do
    name=$(basename "$file" .in)
    case $name in before | reading | empty | unended) ;; *) join "$name" ;; esac
done
join unended
mv "$here/stdin.new" "$here/stdin"
mv "$here/stdout.new" "$here/stdout"

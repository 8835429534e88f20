# Shell functions that count places of src/ and proofs/, for docs/DESIGN-PASS.md. Sourced at the top of the repository: . tools/places.sh
# One function of src/ a line: file, name, parameters, contract (with the result type), body; tabs between.
fns() {
    perl -0777 -ne 'while (/^([ \t]*)(?:pub )?(?:extern "C" )?fn (\w+)(?:<[^>]*>)?(\((?:[^()]++|(?3))*\))(.*?)\{\n(.*?)^\1\}/msg) { my @f = ($ARGV, $2, $3, $4, $5); s{//[^\n]*}{}g, s/\s+/ /g for @f; print join("\t", @f), "\n" }' crates/*/src/*.rt
}
# The functions whose parameters have all of these: with PATTERN..   without: with P.. | grep -vF ..
with() {
    fns | perl -ne 'BEGIN { @p = map { qr/$_/ } splice @ARGV } my @f = split /\t/; print "$f[0] $f[1]\n" unless grep { $f[2] !~ $_ } @p' "$@"
}
# The functions in whose contract this stands: says PATTERN
says() {
    fns | perl -ne 'BEGIN { $p = qr/$ARGV[0]/; @ARGV = () } my @f = split /\t/; print "$f[0] $f[1]\n" if $f[3] =~ $p' "$1"
}
# Functions of the same body, but for names, numbers and texts (bodies of 20 characters or more, so masked): a group a line.
alike() {
    fns | perl -ne 'chomp; my ($f, $n, $p, $c, $b) = split /\t/; $b =~ s/b?"[^"]*"|b\x27[^\x27]*\x27/0/g; $b =~ s/\b(?!(?:if|while|loop|for|in|return|let|mut|match|else|true|false|as)\b)[A-Za-z_]\w*(::\w+)*/w/g; $b =~ s/\b\d+\b/0/g; $b =~ s/^ | $//g; push @{$g{$b}}, "$f:$n" if length $b >= 20; END { for (sort { $g{$a}[0] cmp $g{$b}[0] } keys %g) { print "@{$g{$_}}\n" if @{$g{$_}} > 1 } }'
}
# Functions whose names fall together once item and shelf (and two more pairs) are masked: a group a line.
named_alike() {
    fns | perl -ne 'my ($f, $n) = split /\t/; my $m = $n; $m =~ s/items|shelves/ROWS/g; $m =~ s/item|shelf/ROW/g; $m =~ s/u16|u32/INT/g; $m =~ s/above|below|before|after/SIDE/g; $m =~ s/first_axis|second_axis/AXIS/; push @{$g{$m}}, "$f:$n"; END { for (sort keys %g) { my %d = map { (split ":")[-1] => 1 } @{$g{$_}}; print "$_: @{$g{$_}}\n" if keys %d > 1 } }'
}
# Own enums: file, name, how many variants, the variants.
enums() {
    perl -0777 -ne 'while (/^\s*(?:pub )?enum (\w+) \{\n(.*?)^\s*\}/msg) { my ($n, $b) = ($1, $2); my @v = $b =~ /^\s+([A-Z]\w*)\b.*,$/mg; print "$ARGV $n ", scalar @v, " @v\n" }' crates/*/src/*.rt
}
# Fields of structs whose type matches: fields PATTERN -> file, struct.field, type
fields() {
    T="$1" perl -0777 -ne 'while (/struct (\w+) \{\n(.*?)^\}/msg) { my ($s, $b) = ($1, $2); while ($b =~ /^\s+(?:pub )?(\w+): (\S+),$/mg) { my ($f, $t) = ($1, $2); print "$ARGV $s.$f $t\n" if $t =~ /^(?:$ENV{T})$/ } }' crates/*/src/*.rt
}
# Answers of functions' proofs: how often and in how many files each text stands, `unfolding` lines left out.
answers() {
    perl -0777 -ne 's/--.*//g; while (/^(?:abbrev )?pub (\S+) : goal\.\S+[^\n]*\n(.*?)(?=^(?:abbrev )?pub |^record |^module |^data |\z)/msg) { my ($n, $b) = ($1, $2); $b =~ s/^unfolding .*$//mg; $b =~ s/\s+/ /g; $b =~ s/^ | $//g; $b =~ s/^\Q$n\E(?: [^ =]+)* = //; print "$ARGV\t$b\n" }' $(find crates -name Answers.antt -not -path '*/out/*' | sort)
}

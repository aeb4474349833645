#!/bin/sh
# Bad input of every kind: each line gives its one refusal, and nothing else is lost.
set -eu
cd "$(dirname "$0")/.."
dir=$(mktemp -d)
trap 'rm -rf "$dir"' EXIT
count=0

# gives NAME: the script in $dir/in must print $dir/want
gives() {
    ./loomrack <"$dir/in" >"$dir/got"
    cmp "$dir/got" "$dir/want" || {
        echo "bad input: $1" >&2
        exit 1
    }
    count=$((count + 1))
}

# bytes N BYTE: N copies of a byte
bytes() {
    head -c "$1" /dev/zero | tr '\0' "$2"
}

: >"$dir/in"
: >"$dir/want"
gives 'an empty script prints nothing'

printf '\n' >"$dir/in"
printf '1\trefused\t11\tscript\t1\n' >"$dir/want"
gives 'an empty line is an unknown word'

printf '\t\t\t' >"$dir/in"
gives 'tabs alone are an unknown word'

printf 'get\t0\r\nget\t0' >"$dir/in"
printf '1\trefused\t13\tscript\t2\n2\tbyte\t0\n' >"$dir/want"
gives 'a carriage return is a byte like any other, and the last line may lack its end'

printf 'get\t0\t\n\tget\t0\nget \t0\nGET\t0\nget\t\nget\t-1\nget\t256\nget\t0000\nget\t000\n' >"$dir/in"
printf '1\trefused\t12\tscript\t0\n2\trefused\t11\tscript\t1\n3\trefused\t11\tscript\t1\n4\trefused\t11\tscript\t1\n5\trefused\t13\tscript\t2\n6\trefused\t13\tscript\t2\n7\trefused\t13\tscript\t2\n8\trefused\t13\tscript\t2\n9\tbyte\t0\n' >"$dir/want"
gives 'fields'

{ bytes 80 x; printf '\n'; bytes 81 x; printf '\n'; bytes 60000 x; } >"$dir/in"
printf '1\trefused\t11\tscript\t1\n2\trefused\t10\tscript\t0\n3\trefused\t10\tscript\t0\n' >"$dir/want"
gives 'a line has 80 bytes at most'

bytes 65536 '\n' >"$dir/in"
awk 'BEGIN { for (n = 1; n <= 65536; n++) printf "%d\trefused\t11\tscript\t1\n", n }' >"$dir/want"
gives 'a script has 65,536 bytes at most'

bytes 65537 '\n' >"$dir/in"
printf '0\trefused\t19\tscript\t0\n' >"$dir/want"
gives 'a script of 65,537 bytes is refused whole'

bytes 1000000 '\0' >"$dir/in"
gives 'a script of a million zero bytes is refused whole'

# Random bytes: each line is refused as too long or as an unknown word, whatever its bytes.
head -c 65536 /dev/urandom >"$dir/in"
./loomrack <"$dir/in" >"$dir/got"
lines=$(tr -cd '\n' <"$dir/in" | wc -c)
[ "$(tail -c 1 "$dir/in" | od -An -tu1 | tr -d ' ')" = 10 ] || lines=$((lines + 1))
good=$(awk -F '\t' '$1 == NR && $2 == "refused" && ($3 == 10 && $5 == 0 || $3 == 11 && $5 == 1) && $4 == "script" && NF == 5' "$dir/got" | wc -l)
if [ "$good" -ne "$lines" ] || [ "$(wc -l <"$dir/got")" -ne "$lines" ]; then
    cp "$dir/in" /tmp/loomrack-bad-input
    echo "bad input: random bytes, kept in /tmp/loomrack-bad-input" >&2
    exit 1
fi
count=$((count + 1))
echo "bad input: $count scripts give exactly their refusals"

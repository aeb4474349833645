#!/bin/sh
# Random scripts, valid, damaged and hostile: each prints one line for each of its lines, numbered from 1, in one of the forms of the
# format, and no more than 32 times its own bytes and 128. Fixed seeds, and one fresh seed that is printed.
set -eu
cd "$(dirname "$0")/.."
dir=$(mktemp -d)
trap 'rm -rf "$dir"' EXIT
count=0

# the forms of a result, behind the number and its tab
cat >"$dir/forms" <<'FORMS'
^(follow|latched|merged|lost|quiet|ok|none)$
^(byte|level|mask|drop) [0-9]+$
^drop [0-9]+ [0-9]+$
^vector (chain|local) [0-9]+ [0-9]+$
^outside (chain|local) [0-9]+$
^spurious 24$
^refused (10|11|12|13) script [0-9]+$
^refused (14|15|16|17|18|20) card [0-9]+$
^refused (18|21|22|23|24|25) rack [0-9]+$
FORMS

# promised NAME: the script in $dir/in prints as promised
promised() {
    ./loomrack <"$dir/in" >"$dir/out"
    bytes=$(wc -c <"$dir/in")
    lines=$(tr -cd '\n' <"$dir/in" | wc -c)
    [ "$bytes" -eq 0 ] || [ "$(tail -c 1 "$dir/in" | od -An -tu1 | tr -d ' ')" = 10 ] || lines=$((lines + 1))
    if ! awk -F '\t' -v lines="$lines" '
        NR == FNR { form[NR] = $0; forms = NR; next }
        {
            if ($1 != FNR) { print "line " FNR " has the number " $1; bad = 1; exit }
            text = $2; for (i = 3; i <= NF; i++) text = text " " $i
            for (i = 1; i <= forms; i++) if (text ~ form[i]) break
            if (i > forms) { print "line " FNR " has no form: " text; bad = 1; exit }
        }
        END { if (!bad && FNR != lines) { print FNR " lines for " lines; bad = 1 } exit bad }' "$dir/forms" "$dir/out" >"$dir/why" ||
        [ "$(wc -c <"$dir/out")" -gt $((32 * bytes + 128)) ]; then
        cp "$dir/in" /tmp/loomrack-random-script
        echo "random scripts: $1, kept in /tmp/loomrack-random-script" >&2
        cat "$dir/why" >&2
        exit 1
    fi
    count=$((count + 1))
}

# script SEED LINES DAMAGE: of a hundred lines about DAMAGE are damaged
script() {
    awk -v seed="$1" -v lines="$2" -v damage="$3" '
        function pick(n) { return int(rand() * n) }
        function number() { return rand() < 0.7 ? pick(16) : pick(300) }
        BEGIN {
            srand(seed)
            print "lput\t5\t254\nlput\t3\t255\nput\t9\t254\nput\t10\t255\nmask\t0"
            words = split("line line line line local local put put get lput lget mask take take take ack ack ack back back back", word, " ")
            for (l = 0; l < lines; l++) {
                w = rand() < 0.01 ? "reset" : word[1 + pick(words)]
                if (w == "line" || w == "local") t = w "\t" pick(13) "\t" pick(2)
                else if (w == "put" || w == "lput") t = w "\t" pick(14) "\t" (rand() < 0.5 ? pick(256) : 250 + pick(6))
                else if (w == "get" || w == "lget") t = w "\t" pick(14)
                else if (w == "mask") t = w "\t" (rand() < 0.9 ? pick(4) : pick(9))
                else if (w == "back") t = w "\t" (1 + pick(3))
                else t = w
                if (pick(100) < damage) {
                    at = 1 + pick(length(t))
                    how = pick(4)
                    if (how == 0) t = substr(t, 1, at - 1) substr(t, at + 1)
                    else if (how == 1) t = substr(t, 1, at) sprintf("%c", 1 + pick(9)) substr(t, at + 1)
                    else if (how == 2) t = t "\t" number()
                    else { for (i = 0; i < 90; i++) t = t "x" }
                }
                print t
            }
        }'
}

fresh=$(od -An -N4 -tu4 /dev/urandom | tr -d ' ')
echo "random scripts: fresh seed $fresh"
for seed in 1 2 3 4 5 6 7 8 9 10 "$fresh"; do
    script "$seed" 1500 0 >"$dir/in"
    promised "valid, seed $seed"
    script "$seed" 1500 30 >"$dir/in"
    promised "damaged, seed $seed"
done
head -c 65536 /dev/urandom >"$dir/in"
promised 'random bytes'
head -c 65536 /dev/zero >"$dir/in"
promised 'zero bytes'
echo "random scripts: $count scripts print as promised"

#!/bin/sh
# Each script of examples/ must print what is stored beside it.
set -eu
cd "$(dirname "$0")/.."
count=0
for script in examples/*.txt; do
    ./loomrack <"$script" | cmp - "${script%.txt}.out" || {
        echo "examples: $script does not print ${script%.txt}.out" >&2
        exit 1
    }
    count=$((count + 1))
done
echo "examples: $count scripts print what is stored beside them"

#!/bin/sh
# The compiler must refuse a service token that is returned twice. (A must-fail edit can't show this: it is no question for the prover.)
set -eu
cd "$(dirname "$0")/.."
dir=$(mktemp -d)
trap 'rm -rf "$dir"' EXIT
cp crates.txt "$dir/"
for crate in crates/*; do
    mkdir -p "$dir/$crate"
    for part in src specs proofs; do
        [ ! -d "$crate/$part" ] || cp -r "$crate/$part" "$dir/$crate/"
    done
done
old='    let mask = rack.return_from(service).map_err(Stopped::Serving)?;'
grep -qxF "$old" crates/trials/src/clients.rt
awk -v old="$old" '{ print } $0 == old { print }' crates/trials/src/clients.rt >"$dir/crates/trials/src/clients.rt"
if (cd "$dir/crates/trials" && rt try --test) >"$dir/log" 2>&1; then
    echo "returned twice: the compiler took it" >&2
    exit 1
fi
if ! grep -q 'error\[borrow-e0382\]: use of moved value: `service`' "$dir/log"; then
    cat "$dir/log" >&2
    echo "returned twice: refused, but not for the token" >&2
    exit 1
fi
echo "returned twice: the compiler refuses a service token that was moved"

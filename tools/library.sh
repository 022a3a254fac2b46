#!/usr/bin/env bash
# Proves and builds the library for hosts, crates/nehpudra/out/libnehpudra.a. Crates that do not stand on each other are proved side by side;
# where two stand on the same one, rt proves it once. Prints what rt prints only where it fails.
set -euo pipefail
cd "$(dirname "$(dirname "$(readlink -f "${BASH_SOURCE[0]}")")")"

logs=$(mktemp -d)
trap 'rm -rf "$logs"' EXIT

build() {
    if ! (cd "crates/$1" && rt lib) > "$logs/$1" 2>&1; then
        cat "$logs/$1" >&2
        return 1
    fi
}

jobs=()
for name in host_rows site_turns waiting plan; do
    build "$name" &
    jobs+=($!)
done
for job in "${jobs[@]}"; do
    wait "$job"
done
build nehpudra
echo "library: crates/nehpudra/out/libnehpudra.a is proved and built"

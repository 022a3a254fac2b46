#!/usr/bin/env bash
# Builds a host in C and one in Rust on the library, holds what they print to hosts/expected.txt, and compares the library with the plain
# implementation of the same rules on a few thousand calls and a few hundred plans. The library's archive has to be there; NEHPUDRA_LIB
# and NEHPUDRA_KIT_C may name other folders for it and for the kit's archive. Prints a line for each thing that passes.
set -euo pipefail
root=$(dirname "$(dirname "$(readlink -f "${BASH_SOURCE[0]}")")")

NEHPUDRA_LIB=$(realpath -m "${NEHPUDRA_LIB:-$root/crates/nehpudra/out}")
library=$NEHPUDRA_LIB/libnehpudra.a
if [ ! -f "$library" ]; then
    echo "hosts: $library is missing; docs/HOSTS.md says how it is made" >&2
    exit 1
fi
if [ -z "${NEHPUDRA_KIT_C:-}" ]; then
    manual=$(rt doc)
    NEHPUDRA_KIT_C=$(dirname "$manual")/c
fi
NEHPUDRA_KIT_C=$(realpath -m "$NEHPUDRA_KIT_C")
# cargo runs the build of the Rust crate in another folder, so it is told of whole paths
export NEHPUDRA_LIB NEHPUDRA_KIT_C
cd "$root"

log=$(mktemp)
trap 'rm -f "$log"' EXIT

# Runs a command, and shows what it prints only where it fails.
quietly() {
    if ! "$@" > "$log" 2>&1; then
        cat "$log" >&2
        exit 1
    fi
}

# Holds what a host prints to what is stored.
hold() {
    if ! "$@" | diff - hosts/expected.txt >&2; then
        echo "hosts: $* does not print hosts/expected.txt" >&2
        exit 1
    fi
}

mkdir -p hosts/c/out
quietly "${CC:-cc}" -std=c11 -O2 -Wall -Wextra -Werror -pedantic -I hosts hosts/c/host.c -o hosts/c/out/host "$library" "$NEHPUDRA_KIT_C/liblibc_c.a"
hold hosts/c/out/host
echo "hosts: the host in C prints what it should"

hold cargo run --quiet --locked --manifest-path hosts/rust/Cargo.toml --example host
echo "hosts: the host in Rust prints what it should"

quietly cargo run --quiet --locked --release --manifest-path bench/Cargo.toml -- compare --calls 20000 --plans 300
echo "hosts: $(grep '^Compared .* calls' "$log")"
echo "hosts: $(grep '^Compared .* plans' "$log")"

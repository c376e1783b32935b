#!/bin/sh
# Builds the hashes, the keystream and the authenticated encryption as static libraries, checks each against OpenSSL's and prints how fast it is beside others'.
#   bench/run.sh [hashes | keystream | ciphers]..     (none named: all)
# It is no part of the check. Wanted: a C compiler, and Debian's libssl-dev, libsodium-dev and libmbedtls-dev.
set -eu
cd "$(dirname "$0")/.."
for header in openssl/evp.h sodium.h mbedtls/sha256.h; do
    if ! echo "#include <$header>" | cc -E - >/dev/null 2>&1; then
        echo "$header is not there: apt-get install libssl-dev libsodium-dev libmbedtls-dev" >&2
        exit 1
    fi
done
[ $# -gt 0 ] || set -- hashes keystream ciphers
if [ -r /proc/cpuinfo ]; then sed -n 's/^model name[^:]*: //p' /proc/cpuinfo | head -n 1; fi
mkdir -p target/staticlib
for name; do
    case $name in
        ciphers) crate=aead_c ;;
        *) crate=${name}_c ;;
    esac
    (cd "crates/$crate" && rt lib >/dev/null)
    cp "crates/$crate/out/lib$crate.a" "target/staticlib/lib$name.a"
    cc -O2 -Wall -Wno-deprecated-declarations -o "target/bench-$name" "bench/$name.c" "target/staticlib/lib$name.a" -lcrypto -lsodium -lmbedcrypto
    printf '\n'
    "target/bench-$name"
done

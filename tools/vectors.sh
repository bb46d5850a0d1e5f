#!/bin/sh
# Prints the table of the program `vectors` as OpenSSL's SipHash-2-4 computes it: the hashes of the 64 messages
# (none), 00, 00 01, .. under the key 00 01 .. 0f, each as a number whose least significant byte OpenSSL prints first.
set -e
file=$(mktemp)
trap 'rm -f "$file"' EXIT
: > "$file"
i=0
while [ $i -lt 64 ]; do
    hex=$(openssl mac -macopt hexkey:000102030405060708090a0b0c0d0e0f -macopt size:8 -in "$file" SIPHASH)
    echo "$hex" | tr A-F a-f | sed 's/\(..\)\(..\)\(..\)\(..\)\(..\)\(..\)\(..\)\(..\)/    0x\8\7\6\5\4\3\2\1,/'
    printf "\\$(printf %03o $i)" >> "$file"
    i=$((i + 1))
done

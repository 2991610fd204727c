#!/usr/bin/env bash
# Proves the functions for C (crates/card_c_c), leaves their static library as target/staticlib/libcard_c.a, and prints its sha256.
set -eu
cd "$(dirname "$0")/.."
(cd crates/card_c_c && rt lib)
mkdir -p target/staticlib
cp crates/card_c_c/out/libcard_c_c.a target/staticlib/libcard_c.a
sha256sum target/staticlib/libcard_c.a

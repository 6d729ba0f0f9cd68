#!/usr/bin/env bash
# Proves the library for C and makes it, as target/staticlib/libyittomere.a.
set -u
cd "$(dirname "$(readlink -f "${BASH_SOURCE[0]}")")/.." || exit 1

(cd crates/yittomere_c && rt lib) || exit 1
mkdir -p target/staticlib && cp crates/yittomere_c/out/libyittomere_c.a target/staticlib/libyittomere.a

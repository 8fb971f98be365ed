#!/bin/sh
# Makes the library for hosts in C, target/staticlib/libumbrelnic.a: the static library of the crate umbrelnic_c, under the name that hosts link with.
# rt lib proves what has changed first, in this crate and in those below it.
set -eu

cd "$(dirname "$0")/.."
(cd crates/umbrelnic_c && rt lib)
mkdir -p target/staticlib
cp crates/umbrelnic_c/out/libumbrelnic_c.a target/staticlib/libumbrelnic.a

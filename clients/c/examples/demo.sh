#!/bin/sh
# shellcheck disable=SC2046
# Compiles demo.c over the shared library that clients/build made, and runs it. Run this at the top of the repository.
set -eu
export PKG_CONFIG_PATH="$PWD/clients/out"
cc clients/c/examples/demo.c $(pkg-config --cflags --libs string_interner) -o clients/out/demo
clients/out/demo

#!/bin/sh
# Builds the example into the folder named first (or else target/examples-c at the top of the
# repository). The archive is taken from VINZAGEW_LIB_DIR, or else from target/staticlib.
set -eu
top=$(cd "$(dirname "$0")/../.." && pwd)
library=${VINZAGEW_LIB_DIR:-$top/target/staticlib}
folder=${1:-$top/target/examples-c}
mkdir -p "$folder"
${CC:-cc} -std=c11 -Wall -Wextra -Wpedantic -Werror -O2 -I "$top/include" \
    "$top/examples/c/read.c" "$library/libvinzagew.a" -o "$folder/read"

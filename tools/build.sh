#!/bin/sh
# Proves the named crates, with those below them, and builds them: a program as crates/NAME/out/NAME, the static library as crates/capi/out/libcapi.a.
#   tools/build.sh lower simulate capi
set -e
cd "$(dirname "$0")/../crates"
for c in "$@"; do
    if [ "$c" = capi ]; then
        (cd capi && rt lib)
    elif [ -f "$c/src/main.rt" ]; then
        (cd "$c" && rt run < /dev/null > /dev/null || [ -x "out/$c" ])
    else
        (cd "$c" && rt check)
    fi
done

#!/usr/bin/env bash
# build.sh [NAME..]: proves the programs with these names, or all of them and the library, and puts what is built of them under target/:
# each program as target/bin/NAME, the static library for C as target/staticlib/libcapi.a (NAME capi). What has not changed since is
# neither proved nor built again.
set -euo pipefail
cd "$(dirname "$0")"
names=("$@")
[ $# -gt 0 ] || names=(capi $(cd crates && echo */src/main.rt | sed 's|/src/main\.rt||g'))
mkdir -p target/bin target/staticlib
log=$(mktemp)
trap 'rm "$log"' EXIT
for name in "${names[@]}"; do
    if [ "$name" = capi ]; then
        (cd crates/capi && rt lib) >"$log" 2>&1 || { cat "$log"; exit 1; }
        made=target/staticlib/libcapi.a
        cp crates/capi/out/libcapi.a "$made"
    else
        # rt runs what it has built; with no input the program's own status says nothing
        (cd "crates/$name" && rt run) </dev/null >"$log" 2>&1 || true
        grep -q "^rt: running out/$name;" "$log" || { cat "$log"; exit 1; }
        made=target/bin/$name
        cp "crates/$name/out/$name" "$made"
    fi
    echo "built: $made"
done

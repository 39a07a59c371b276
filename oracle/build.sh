#!/bin/sh
# Builds the oracle from nothing and prints the binary's path as its last line.
# Needs cargo, rustc and Python 3, and no network.
#
#   ORACLE_SRC    folder with the Rust's files (see README.md); else source/
#                 beside this script
#   ORACLE_BUILD  where to build; else build/ beside this script
#   ORACLE_MULTIHASH  folder with the crates multihash-0.19.* and
#                 unsigned-varint-0.8.*, as Debian's packages have them, to
#                 build with in place of the harness's own multihash
set -eu
here=$(cd "$(dirname "$0")" && pwd)
build=${ORACLE_BUILD:-$here/build}
stage=$build/stage

# The Rust's files first: where one is missing, nothing is built.
sources=$("$here/sources.py")
for tool in cargo rustc; do
    command -v $tool >/dev/null || { echo "oracle: no $tool on the PATH" >&2; exit 1; }
done

# The harness, then the Rust's files under their real paths.
rm -rf "$stage"
mkdir -p "$stage"
cp -R "$here/harness/." "$stage/"
: >"$build/SOURCES"
tab=$(printf '\t')
echo "$sources" | while IFS=$tab read -r name source; do
    if [ -e "$stage/$name" ]; then
        echo "oracle: the harness has its own $name" >&2
        exit 1
    fi
    cp "$source" "$stage/$name"
    cmp "$source" "$stage/$name"
    printf '%s=%s ' "$name" "$(sha256sum <"$source" | cut -c1-64)" >>"$build/SOURCES"
done
# The crate multihash, if it is to be had: its sources as they are, and a Cargo.toml without what it does not need here.
multihash=shim
if [ -n "${ORACLE_MULTIHASH:-}" ]; then
    for name in unsigned-varint-0.8 multihash-0.19; do
        for source in "$ORACLE_MULTIHASH/$name".*; do :; done
        [ -f "$source/src/lib.rs" ] || { echo "oracle: no $name in $ORACLE_MULTIHASH, which ORACLE_MULTIHASH names" >&2; exit 1; }
        crate=$stage/shims/${name%-*}
        mkdir -p "$crate"
        rm -rf "$crate/src"
        cp -R "$source/src" "$crate/src"
        cp "$here/harness/published/${name%-*}.toml" "$crate/Cargo.toml"
        multihash=${source##*-}
    done
fi
printf 'multihash=%s ' "$multihash" >>"$build/SOURCES"
# The one opened copy: mcache.rs and a tail (see README.md).
g=$stage/crates/pubsub/src/gossipsub
cat "$g/mcache.rs" "$g/mcache_open_tail.rs" >"$g/mcache_open.rs"

cd "$stage"
ORACLE_SOURCES=$(sed 's/ $//' "$build/SOURCES") CARGO_NET_OFFLINE=true \
    CARGO_TARGET_DIR="$build/target" cargo build --release --offline --quiet >&2
echo "$build/target/release/oracle"

#!/bin/sh
# Tests the stand-in. With a folder of the given sources as argument (the one that holds ord/, chain/ and
# fundamental/), it also compares our copies with those.
set -eu
cd "$(dirname "$0")/oracle"
(cd src/given && sha256sum --check --strict --quiet ../../given.sha256)
if [ $# -gt 0 ]; then
    for f in ord/insert.rs ord/remove.rs ord/find.rs ord/simple_ord_arena.rs chain/links.rs \
        chain/impl_chain_arena_trait.rs fundamental/errors.rs; do
        cmp "$1/$f" "src/given/$(basename "$f")"
    done
    echo "the given files are those of the sources"
fi
cargo build --release --offline
cargo test --offline

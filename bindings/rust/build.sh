#!/bin/sh
# Builds out/histar-cluster, over the library that ./lib has made (or over that in the folder HISTAR_LIB). It needs cargo, and the headers and
# crates of Debian's libssl-dev, librust-h2-dev, librust-hyper-dev, librust-openssl-dev, librust-prometheus-dev, librust-prost-dev,
# librust-sd-notify-dev, librust-serde-derive-dev, librust-serde-dev, librust-thiserror-dev, librust-tokio-dev, librust-tokio-openssl-dev and
# librust-toml-dev.
set -eu
top=$(cd "$(dirname "$0")/../.." && pwd)
. "$top/gate/answer.sh"
answer "$@"
library=${HISTAR_LIB:-$top/out/lib}
lacks() { echo "histar-cluster: $1" >&2; exit 69; }
[ -f "$library/libhistar.a" ] || lacks 'the library is missing: run ./lib first'
command -v cargo >/dev/null || lacks 'no cargo is on the path: install it'
for it in h2 hyper openssl prometheus prost sd-notify serde serde_derive thiserror tokio tokio-openssl toml; do
    ls -d "/usr/share/cargo/registry/$it"-[0-9]* >/dev/null 2>&1 || lacks "the crate $it is missing: install librust-$(echo $it | tr _ -)-dev"
done
mkdir -p "$top/out"
cd "$top/bindings/rust/histar-etcd"
HISTAR_LIB=$(cd "$top" && cd "$library" && pwd) RUSTFLAGS="--remap-path-prefix=$top=. --remap-path-prefix=$HOME=~" \
    cargo build --release --offline --locked --quiet --bin histar-cluster
cp "${CARGO_TARGET_DIR:-target}/release/histar-cluster" "$top/out/histar-cluster"

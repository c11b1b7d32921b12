#!/bin/sh
# Builds the oracle from nothing; the last line printed is the binary's path.
#
#   SPIRT_SRC    folder with spirt's files, either as src/qptr/layout.rs (or
#                qptr/layout.rs) or under the flat names
#                src--src--qptr--layout.rs.txt
#   ORACLE_DIR   where to assemble and build (default ${TMPDIR:-/tmp}/oracle-build)
#   PROFILE      cargo profile: release (default) or release-checked (the same
#                with overflow checks and debug assertions)
#   SPIRV_GRAMMAR_DIR, CARGO_REGISTRY   places of the Debian packages' files
set -eu
here=$(cd "$(dirname "$0")" && pwd)
: "${SPIRT_SRC:?give the folder of spirt's files}"
ORACLE_DIR=${ORACLE_DIR:-${TMPDIR:-/tmp}/oracle-build}
PROFILE=${PROFILE:-release}
CARGO_REGISTRY=${CARGO_REGISTRY:-/usr/share/cargo/registry}
SPIRV_GRAMMAR_DIR=${SPIRV_GRAMMAR_DIR:-/usr/include/spirv/unified1}
export SPIRV_GRAMMAR_DIR

# 1. Debian's packages, if any is missing.
missing=
for p in librust-smallvec-dev librust-itertools-dev librust-arrayvec-dev \
         librust-lazy-static-dev librust-rustc-hash-dev librust-indexmap-dev \
         librust-serde-dev librust-serde+serde-derive-dev librust-serde-json-dev \
         librust-elsa-dev librust-derive-more-dev spirv-headers; do
    dpkg-query -W -f='${Status}' "$p" 2>/dev/null | grep -q 'ok installed' ||
        missing="$missing $p"
done
if [ -n "$missing" ]; then
    apt-get update >&2
    # shellcheck disable=SC2086
    DEBIAN_FRONTEND=noninteractive apt-get install -y $missing >&2
fi

# 2. The crate: stubs first, then spirt's own files over them.
crate=$ORACLE_DIR/crate
rm -rf "$crate"
mkdir -p "$crate/.cargo" "$crate/src/qptr/lower" "$crate/src/spv"
cp -R "$here/stubs/." "$crate/"
for f in lib context func_at transform cfgssa qptr/mod qptr/layout qptr/lower \
         qptr/shapes spv/mod spv/spec; do
    flat=$SPIRT_SRC/src--src--$(echo "$f" | sed 's,/,--,g').rs.txt
    if [ -f "$flat" ]; then from=$flat
    elif [ -f "$SPIRT_SRC/src/$f.rs" ]; then from=$SPIRT_SRC/src/$f.rs
    elif [ -f "$SPIRT_SRC/$f.rs" ]; then from=$SPIRT_SRC/$f.rs
    elif [ -f "$SPIRT_SRC/${flat##*/src--}" ]; then from=$SPIRT_SRC/${flat##*/src--}
    else echo "missing $f.rs under $SPIRT_SRC" >&2; exit 1
    fi
    if [ -e "$crate/src/$f.rs" ]; then echo "stub hides $f.rs" >&2; exit 1; fi
    cp "$from" "$crate/src/$f.rs"
    cmp "$from" "$crate/src/$f.rs"
done

# 3. The one change to spirt's files: a line at the end of lower.rs.
printf '\n%s\n' 'pub mod oracle;' >> "$crate/src/qptr/lower.rs"
cp "$here/src/oracle.rs" "$crate/src/qptr/lower/oracle.rs"

# 4. Build, from Debian's crates only.
cat > "$crate/.cargo/config.toml" <<TOML
[source.crates-io]
replace-with = "debian"
[source.debian]
directory = "$CARGO_REGISTRY"
TOML
(cd "$crate" && cargo build --offline --profile "$PROFILE" --bin oracle \
    --target-dir "$ORACLE_DIR/target" >&2)
echo "$ORACLE_DIR/target/$PROFILE/oracle"

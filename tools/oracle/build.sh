#!/bin/bash
# Builds the oracle from the nine original files, unchanged.
# usage: tools/oracle/build.sh FOLDER        the original stands in FOLDER/entab/src
# The result is target/oracle/oracle; the variable ORACLE_BUILD names another folder than target/oracle.
set -euo pipefail

[ "${1:-}" != --help ] || { sed -n '2,4s/^# //p' "$0"; exit 0; }
[ $# = 1 ] || { sed -n '2,4s/^# //p' "$0" >&2; exit 2; }
here=$(cd "$(dirname "$0")" && pwd)
original=$(cd "$1" && pwd)
build=${ORACLE_BUILD:-$here/../../target/oracle}
mkdir -p "$build"
build=$(cd "$build" && pwd)
src=$build/entab/src

unchanged() { (cd "$1" && sha256sum --check --quiet "$here/original.sha256"); }

# The folder in which Debian's packages keep the crates.
packages="librust-chrono-dev librust-memchr-dev librust-serde-dev"
crates=$(dpkg -L librust-memchr-dev 2>/dev/null | grep -m1 '/memchr-[0-9.]*$' | xargs -r dirname || true)
[ -n "$crates" ] || { echo "missing packages: apt-get install --no-install-recommends $packages" >&2; exit 2; }

unchanged "$original"
rm -rf "$build/entab"
mkdir -p "$src/parsers/agilent" "$build/.cargo"
while read -r _ file; do cp "$original/$file" "$build/$file"; done < "$here/original.sha256"

# Stubs for what the nine files name and are not: the root, the buffer, the other parsers.
cp "$here/stubs/Cargo.toml" "$build/entab/"
cp "$here/stubs/lib.rs" "$here/stubs/main.rs" "$here/stubs/buffer.rs" "$here/driver.rs" "$here/fill.rs" "$here/fetch.rs" "$src/"
cp "$here/stubs/fill.rs" "$src/bin_fill.rs"
cp "$here/stubs/fetch.rs" "$src/bin_fetch.rs"
for parser in fasta fastq flow inficon sam thermo tsv tsv_inference; do : > "$src/parsers/$parser.rs"; done

cat > "$build/.cargo/config.toml" <<END
[source.crates-io]
replace-with = "debian"
[source.debian]
directory = "$crates"
END
(cd "$build/entab" && cargo build --release --offline --target-dir "$build/target")

unchanged "$build"
unchanged "$original"
cp "$build/target/release/oracle" "$build/oracle"
echo "built $build/oracle from nine unchanged files"

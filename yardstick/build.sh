#!/bin/sh
# build.sh RAV1E BUILD
#
# Compiles the range coder and the undo log of a checkout of rav1e 0.8.1 in the folder RAV1E behind the three programs of
# this folder, and leaves them in BUILD/bin: ec_oracle, ec_gen, ec_bench. Nothing is fetched; it wants sh, awk and cargo.
# No file of rav1e stands in this repository: the copies that are compiled lie in BUILD alone.
set -eu
if [ $# -ne 2 ]; then
  echo "usage: build.sh RAV1E BUILD" >&2
  exit 2
fi
here=$(CDPATH= cd -- "$(dirname -- "$0")" && pwd)
rav1e=$(CDPATH= cd -- "$1" && pwd)
for file in ec.rs util/cdf.rs context/cdf_context.rs; do
  if [ ! -f "$rav1e/src/$file" ]; then
    echo "build.sh: no src/$file in $rav1e: is it a checkout of rav1e?" >&2
    exit 2
  fi
done
mkdir -p "$2"
out=$(CDPATH= cd -- "$2" && pwd)
tree=$out/tree
context=$rav1e/src/context/cdf_context.rs
rm -rf "$tree"
mkdir -p "$tree" "$out/bin"
cp -R "$here/Cargo.toml" "$here/stubs" "$here/ec" "$tree/"

# without_tests FILE: up to its test module
without_tests() { awk '/^#\[cfg\(test\)\]/ { exit } { print }' "$1"; }

# item PATTERN: a top level item of the context, from the line that begins with it to its end
item() {
  awk -v p="$1" '!on && index($0, p) == 1 { on = 1 } on { print; if (/^\}/ || /^[^{]*;$/) exit }' "$context"
}

# The choice between assembly and Rust becomes Rust.
{
  without_tests "$rav1e/src/ec.rs" | awk '
    /^cfg_if::cfg_if! \{/ { skip = 1; print "pub use self::rust::*;"; next }
    skip { if (/^\}/) skip = 0; next }
    { print }'
  cat "$here/ec/src/ec_extra.rs"
} > "$tree/ec/src/ec.rs"
without_tests "$rav1e/src/util/cdf.rs" > "$tree/ec/src/cdf.rs"
# Of the context: the log and what it stands on, over a flat array of numbers.
{
  cat "$here/ec/src/context_head.rs"
  item 'pub const CDF_LEN_MAX'
  echo '#[derive(Clone)]'
  item 'pub struct CDFContextCheckpoint'
  item 'pub struct CDFOffset'
  echo 'impl CDFContext {'
  awk '/^  pub fn offset</ { on = 1 } on { print; if (/^  \}/) exit }' "$context"
  echo '}'
  awk '/^struct CDFContextLogPartition/ { on = 1 } /^pub struct ContextWriter</ { exit } on { print }' "$context"
  echo 'impl CDFContextLog {'
  echo '  pub fn oracle_checkpoint(&self) -> CDFContextCheckpoint { self.checkpoint() }'
  echo '}'
} > "$tree/ec/src/context.rs"

cd "$tree"
CARGO_TARGET_DIR="$out/target" cargo build --offline --release --workspace
for program in ec_oracle ec_gen ec_bench; do
  cp "$out/target/release/$program" "$out/bin/"
done

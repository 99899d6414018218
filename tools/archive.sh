#!/usr/bin/env bash
# Writes crates/exports/out/libexports.a for Rust and C after `rt ci`: proves `exports` over the libraries that `rt ci` has just proved in this checkout,
# and compiles it. By hand, `rt lib` in crates/exports writes the archive too, and proves first what is below wherever no check has kept that.
set -euo pipefail
cd "$(dirname "$0")/../crates/exports"
# Libraries with a stamp are those of earlier checks, which `rt ci` has put back: `rt lib` knows which of them still stand.
if compgen -G '../*/out/rlib/stamp' > /dev/null; then exec rt lib; fi
kit=$(dirname "$(dirname "$(readlink -f "$(command -v rattle)")")")
libraries=()
for name in $(sed -n 's/^exports staticlib://p' ../../crates.txt); do
  libraries+=(--extern "$name=../$name/out/rlib/$name.rlib")
done
for folder in ../*/out/rlib; do
  libraries+=(-L "dependency=$folder")
done
mkdir -p out
exec rattle build --crate-name exports src/lib.rt --crate-type staticlib --links exports= "${libraries[@]}" \
  --extern "std=$kit/rlibs/std.rlib" -L "dependency=$kit/rlibs" \
  --antt-project "$kit/rattle/logic/antt-project.json" --logic-built "$kit/logic_built" --toolchain "$kit/toolchain" -o out/libexports.a

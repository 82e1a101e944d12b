#!/bin/sh
# Builds gdsr's published write code from the folder GDSR_SRC, unchanged, with the stand-ins beside it, and the programs over it.
# Without a static library (LIBRARY, by default target/staticlib/libravenvanity.a) the programs compare gdsr with stored cases alone.
set -e
here=$(cd "$(dirname "$0")" && pwd)
root=$(dirname "$here")
: "${GDSR_SRC:?the folder with the published code, whose crates/gdsr/src has cell.rs}"
published=$(cd "$GDSR_SRC/crates/gdsr/src" && pwd)
from_here() { case $1 in /*) echo "$1" ;; *) echo "$PWD/$1" ;; esac; }
target=$(from_here "${ORACLE_TARGET:-$root/target/oracle}")
library=$(from_here "${LIBRARY:-$root/target/staticlib/libravenvanity.a}")
options="--edition 2024 -C opt-level=3 -C codegen-units=1"

# the published files and the stand-ins, as links in the places that gdsr's module tree gives them
tree=$target/gdsr
rm -rf "$tree"
mkdir -p "$tree/config" "$tree/elements" "$tree/io/write"
for file in cell error library point timestamp types config/gds_file_types \
    elements/element elements/gds_box elements/node elements/path elements/polygon elements/property \
    elements/reference elements/text io/write/mod io/write/conversion io/write/gds_format io/write/validation; do
    ln -s "$published/$file.rs" "$tree/$file.rs"
done
# published without the item that its last attribute is for
{ cat "$published/units.rs"; echo 'const _: () = ();'; } >"$tree/units.rs"
for file in lib bridge design_rules geometry grid traits; do
    ln -s "$here/standins/$file.rs" "$tree/$file.rs"
done
ln -s "$here/standins/config.rs" "$tree/config/mod.rs"
ln -s "$here/standins/elements.rs" "$tree/elements/mod.rs"
ln -s "$here/standins/io.rs" "$tree/io/mod.rs"
ln -s "$here/standins/read.rs" "$tree/io/read.rs"
ln -s "$here/standins/svg.rs" "$tree/io/write/svg.rs"

cd "$target"
rustc $options --crate-type rlib --crate-name chrono "$here/standins/chrono.rs"
rustc $options --crate-type rlib --crate-name rayon "$here/standins/rayon.rs"
rustc $options --crate-type rlib --crate-name gdsr -L . --extern chrono=libchrono.rlib --extern rayon=librayon.rlib --cap-lints allow gdsr/lib.rs

with=""
if [ -f "$library" ]; then
    with="--cfg proved -L native=$(dirname "$library") -l static=$(basename "$library" .a | sed 's/^lib//')"
else
    echo "no static library at $library: only stored cases can be compared"
fi
options="$options -L . --extern gdsr=libgdsr.rlib --check-cfg cfg(proved,wrapped,test) $with"
# src/pairs.rs says why the three are wrapped
wraps="--cfg wrapped -C link-arg=-Wl,--wrap=sin,--wrap=cos,--wrap=sincos -C link-arg=-lm"
rustc $options $wraps -o oracle "$here/src/oracle.rs"
rustc $options -o cells "$here/src/cells.rs"
rustc $options -o libraries "$here/src/libraries.rs"

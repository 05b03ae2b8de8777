#!/bin/sh
# A log that was only opened has no append: behind it a sector of a lost append may stand. This shows that a crate that
# appends to one does not compile.
set -eu
rt=${RT:-rt}
top=$(cd "$(dirname "$0")/.." && pwd)
folder=$(mktemp -d)
trap 'rm -rf "$folder"' EXIT
mkdir -p "$folder/crates/app/src"
for crate in sector_device input_entries log_format sector_log; do
    (cd "$top/crates" && tar --exclude=out -cf - "$crate") | (cd "$folder/crates" && tar -xf -)
done
cp "$top/HANDLES" "$folder"
grep -E '^(sector_device|input_entries|log_format|sector_log):' "$top/crates.txt" > "$folder/crates.txt"
echo 'app: sector_log sector_device' >> "$folder/crates.txt"
cat > "$folder/crates/app/src/lib.rt" <<'APP'
//! Appends to a log that was only opened.
#![tactic(auto)]

use sector_device::SectorDevice;
use sector_log::{Entry, Opened};

pub fn append_at_once<D: SectorDevice>(opened: &mut Opened<D>, more: &[Entry]) {
    let _ = opened.append(more);
}
APP
answer=$(cd "$folder/crates/app" && "$rt" check --only append_at_once 2>&1) && {
    echo "it compiles: $answer"
    exit 1
}
case $answer in
    *'no method named `append` found for type `Opened<D>`'*) echo 'append on an opened log does not compile, as it must be' ;;
    *)
        echo "refused for another cause: $answer"
        exit 1
        ;;
esac

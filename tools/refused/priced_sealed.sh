#!/bin/sh
# Tries a program that prices a sealed network, beside copies of the crates that it needs in a temporary folder, and
# shows how it is refused. Ends with 0 where the call is refused, and with 1 otherwise. It takes a minute or two, since
# the copies are proved anew.
set -eu
root=$(cd "$(dirname "$0")/../.." && pwd)
work=$(mktemp -d)
trap 'rm -rf "$work"' EXIT
mkdir -p "$work/crates/priced_sealed/src"
for crate in network layers; do
    mkdir "$work/crates/$crate"
    cp -r "$root/crates/$crate/src" "$root/crates/$crate/specs" "$root/crates/$crate/proofs" "$work/crates/$crate"
done
cd "$work"
cat > crates.txt <<'CRATES'
network:
layers: network arrayvec
priced_sealed: network layers
CRATES
cat > crates/priced_sealed/src/lib.rt <<'PROGRAM'
//! Prices a network that is sealed.
#![tactic(auto)]

use layers::draft::Sealed;
use layers::fault::LayerFault;
use layers::prices::Prices;
use network::network::Network;

pub fn reprice<N: Network>(net: &mut Sealed<Prices<N>>) -> Result<(), LayerFault> {
    net.price(2, 5)
}
PROGRAM
(cd crates/priced_sealed && rt check) > told.txt 2>&1 || true
grep "^src/lib.rt" told.txt
grep -q 'error\[unknown-method\]: no method named `price`' told.txt

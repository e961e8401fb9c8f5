#!/usr/bin/env bash
# Tries two misuses of a panel on a copy of the crates, and fails unless the compiler refuses each by name: offering to a panel that nobody mans, and
# letting a manned panel go. The right use is tried first, so that a refusal is one of the misuse.
set -eu -o pipefail
cd "$(dirname "$0")/.."
copy=$(mktemp -d)
trap 'rm -rf "$copy"' EXIT
tar --exclude=out -cf - crates crates.txt | tar -xf - -C "$copy"
mkdir -p "$copy/crates/panel_use/src"
echo 'panel_use: curved panel' >> "$copy/crates.txt"

# Writes a crate with this use of a panel, and prints what the compiler says of it.
try() {
    cat - > "$copy/crates/panel_use/src/lib.rt" <<END
// A use of a panel.
#![tactic(auto)]

use curved::curved::Curved;
use panel::panel::Panel;
use panel::watch::Idle;
use std::test::Fail;

pub fn of_panel(panel: Panel<Curved, Curved, Idle>, words: &[u32], page: &mut [u8; 256]) {
    $1
}

#[test]
fn compiles(rt: HostRuntime) -> Result<(), Fail> {
    assert!(rt; true);
    Ok(())
}
END
    (cd "$copy/crates/panel_use" && rt try --test 2>&1) || true
}

# Fails unless the compiler's words for the use hold these.
expect() {
    local what=$1 use=$2 words=$3 said
    said=$(try "$use")
    if ! grep -qF -- "$words" <<< "$said"; then
        printf '%s\n' "$said" "misuse: $what: expected '$words'" >&2
        exit 1
    fi
    echo "misuse: $what: $words"
}

expect 'a panel is manned, offered to and stood down' \
    'let mut panel = panel.man(1); let _ = panel.offer_dispatch(words); let (_, _) = panel.stand_down(page);' \
    '1 passed; 0 failed'
expect 'offering to a panel that nobody mans' \
    'let mut panel = panel; let _ = panel.offer_dispatch(words);' \
    'error[unknown-method]: the method `offer_dispatch`'
expect 'letting a manned panel go' \
    'let mut panel = panel.man(1); let _ = panel.offer_dispatch(words);' \
    'error[linear-value-let-go]'

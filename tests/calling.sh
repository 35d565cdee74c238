#!/usr/bin/env bash
# Compares the caller that each CALLING.md shows with its module in crates/rtnl_uses, where it is
# proved. The last line is 'N passed, M failed', and the status is 1 where one differs.
set -u
cd "$(dirname "${BASH_SOURCE[0]}")/.." || exit 1
. tests/helpers/cases.sh

# caller_in PAGE: the page's first block of Rust.
caller_in() { awk '/^```/ { if (inside) exit; inside = $0 == "```rust"; next } inside' "$1"; }

# The page shows the module's code, without the line that says what it is and the blank one behind it.
shows_caller() { diff <(caller_in "$1") <(sed 1,2d "$2"); }

# compare CRATE MODULE: the case of a page.
compare() {
  check "the caller of $1" shows_caller "crates/$1/CALLING.md" "crates/rtnl_uses/src/$2.rt"
}

compare nl_attr attributes
compare nl_values values
compare nl_route families
compare nl_frame datagrams
compare nl_request requests
compare nl_table tables
compare nl_dump dumps
compare nl_mirror mirrors
compare rtnl recordings

finish

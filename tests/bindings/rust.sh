#!/usr/bin/env bash
# Builds and tests the package for Rust, in bindings/rust, offline and in a copy of that folder
# alone, over the library that is installed under RTNLC_PREFIX: its tests and the examples of its
# pages, also under valgrind; what its views say of recordings, of generated and of mutated
# datagrams against what the program RTNL prints, which is the proved one where no other is named;
# its example programs; the crates as they would be published, with a program that uses them; and
# what is said where the library is missing or is of another version. Where PROGRAMS names a folder
# the example programs are put there. Packages that are missing are installed where that can be,
# and what can't run says so and isn't counted. The last line is 'N passed, M failed', and the
# status is 1 where a case failed.
set -u
cd "$(dirname "${BASH_SOURCE[0]}")/../.." || exit 1
top=$PWD
: "${RTNLC_PREFIX:?names the folder under which the library is installed}"
RTNL=${RTNL:-$(tests/helpers/proved.py)} || exit 1
. tests/helpers/cases.sh

tests/helpers/install_packages.sh cc gcc pkg-config pkg-config cargo cargo valgrind valgrind
for command in cargo pkg-config; do
  has "$command" 'the package for Rust' || { finish; exit; }
done

export PKG_CONFIG_PATH=$RTNLC_PREFIX/lib/pkgconfig LD_LIBRARY_PATH=$RTNLC_PREFIX/lib
export RTNLC_INCLUDE_DIR=$RTNLC_PREFIX/include RTNL_ROOT=$top
export CARGO_NET_OFFLINE=true CARGO_TARGET_DIR=$folder/target CARGO_TERM_COLOR=never
unset RTNLC_LIB_DIR RTNLC_STATIC RUSTFLAGS RUSTDOCFLAGS RTNL_MUTATIONS
package=$folder/rust
mkdir "$package"
tar -C bindings/rust --exclude=./target -cf - . | tar -C "$package" -xf -

# in_package COMMAND..: in the copy; what it prints is shown where it fails.
in_package() { (cd "$package" && "$@") >"$folder/output" 2>&1 || ! tail -n 40 "$folder/output"; }

# has_part COMMAND NAME: cargo has this command.
has_part() {
  cargo "$1" --version >/dev/null 2>&1 || ! echo "skipped: $2, since cargo $1 is not here"
}

# tested ARGUMENT..: the tests with these arguments of cargo test; each test is a case.
tested() {
  local name status
  (cd "$package" && cargo test --no-fail-fast "$@") >"$folder/tests" 2>&1
  status=$?
  while read -r name; do
    check "$name" grep -qF "test $name ... ok" "$folder/tests"
  done < <(sed -nE 's/^test (.*) \.\.\. .*$/\1/p' "$folder/tests")
  check "cargo test $*" test "$status" = 0 -a "$(grep -c '^test .* ok$' "$folder/tests")" -gt 25
  [ "$status" = 0 ] || grep -vE '^test .* ok$|^$' "$folder/tests" | tail -n 40
}

# binaries: the programs of the tests.
binaries() {
  (cd "$package" && cargo test --no-run --tests --message-format=json 2>/dev/null) |
    python3 -c 'import json, sys
for it in map(json.loads, sys.stdin):
    if it.get("executable") and it["profile"]["test"]: print(it["executable"])'
}

# under_valgrind PROGRAM ARGUMENT..: it ends well, and nothing is reported, nor lost.
under_valgrind() {
  valgrind -q --error-exitcode=99 --leak-check=full --errors-for-leak-kinds=definite,indirect \
    "$@" >"$folder/output" 2>&1 || ! tail -n 40 "$folder/output"
}

# is_short FILE LINES: a file of the examples has no more lines.
is_short() { [ "$(wc -l <"$package/rtnl/examples/$1")" -le "$2" ]; }

# is_refused TEXT COMMAND..: the command fails, and says this among other things.
is_refused() {
  if (cd "$package" && "${@:2}") >"$folder/output" 2>&1; then return 1; fi
  grep -qF -- "$1" "$folder/output" || ! tail -n 20 "$folder/output"
}

# with_version VERSION: pkg-config knows the library as one of this version.
with_version() {
  mkdir -p "$folder/other"
  sed "s/^Version:.*/Version: $1/" "$PKG_CONFIG_PATH/rtnlc.pc" >"$folder/other/rtnlc.pc"
}

# is_other_library: a library that says that it is of another version is not used.
is_other_library() {
  echo 'const char *rtnlc_version(void) { return "0.4.0"; }' >"$folder/other.c"
  cc -shared -fPIC "$folder/other.c" -o "$folder/other.so" &&
    ends 2 '' "$1: librtnlc is 0.4.0, and this program needs 0.3.0: install it by ./install \
--library of rtnl, or from its package librtnlc0" \
      env LD_PRELOAD="$folder/other.so" "$folder/target/debug/examples/$1" "$folder"
}

# is_static: an example that is linked with librtnlc.a needs no librtnlc.so.
is_static() {
  RTNLC_STATIC=1 RTNLC_LIB_DIR=$RTNLC_PREFIX/lib CARGO_TARGET_DIR=$folder/static \
    in_package cargo build --example links &&
    ends 2 '' 'links: No such file or directory' \
      env -u LD_LIBRARY_PATH "$folder/static/debug/examples/links" "$folder/nowhere"
}

# uses_it: a program outside of the workspace, over the crates as they are published.
uses_it() {
  mkdir -p "$folder/user/src" && cp -r "$folder"/target/package/rtnl*-0.3.0 "$folder/user" &&
    cat >"$folder/user/Cargo.toml" <<END &&
[package]
name = "user"
version = "0.0.0"
edition = "2021"
[dependencies]
rtnl = "0.3"
[patch.crates-io]
rtnl = { path = "rtnl-0.3.0" }
rtnlc-sys = { path = "rtnlc-sys-0.3.0" }
END
    echo 'fn main() { println!("{}", rtnl::Tape::new().read(&[0; 15]).unwrap_err()) }' \
      >"$folder/user/src/main.rs" &&
    [ "$(cd "$folder/user" && cargo run -q 2>&1)" = 'cut at 0' ]
}

# packaged: both crates are made, each built of what is in it, and nothing is warned of but that
# no page on the net is named.
packaged() {
  in_package cargo package --workspace --exclude checks --allow-dirty &&
    ! grep '^warning' "$folder/output" | grep -v 'no documentation, homepage or repository$' &&
    for name in LICENSE-MIT LICENSE-APACHE README.md; do
      cmp "$package/$name" "$folder/target/package/rtnl-0.3.0/$name" || return 1
    done
}

whole '98,000 of 100,000 mutations' || export RTNL_MUTATIONS=2000
# These take a third of the time of a build that is done once.
whole 'what a debugger needs' || export CARGO_INCREMENTAL=0 CARGO_PROFILE_DEV_DEBUG=0
tested --workspace
if whole 'what clippy says' && has_part clippy 'what clippy says'; then
  check 'clippy' in_package cargo clippy --workspace --all-targets -- -D warnings
fi
has_part fmt 'the form of the code' && check 'rustfmt' in_package cargo fmt --all --check
if whole 'the pages of the crates'; then
  check 'pages without a warning' env RUSTDOCFLAGS='-D warnings' bash -c \
    "cd '$package' && cargo doc --no-deps --workspace --exclude checks >'$folder/output' 2>&1"
fi
if whole 'the tests under valgrind' && has valgrind 'the tests under valgrind'; then
  export RTNL_MUTATIONS=2000
  for binary in $(binaries); do
    check "valgrind: $(basename "${binary%-*}")" under_valgrind "$binary"
  done
  unset RTNL_MUTATIONS
fi

check 'the programs are built' in_package cargo build --workspace --all-targets
tests/bindings/rust/compare.py "$folder/target/debug/as_json" "$RTNL" >"$folder/compared"
grep -v ' passed, ' "$folder/compared"
read -r found _ wrong _ < <(tail -n 1 "$folder/compared")
passed=$((passed + found)) failed=$((failed + wrong))
check 'all is compared' test "$found" -gt 150

for name in links routes watch link_up; do
  check "$name.rs is short" is_short "$name.rs" 60
done
check 'route_add.rs is short' is_short route_add.rs 80
check 'source/mod.rs is short' is_short source/mod.rs 120
if [ -n "${PROGRAMS-}" ]; then
  profile=debug
  if whole 'optimization of the example programs'; then
    profile=release
    check 'the example programs, with optimization' in_package cargo build --release --examples
  fi
  mkdir -p "$PROGRAMS" &&
    cp "$folder/target/$profile/examples"/{links,routes,watch,link_up,route_add} "$PROGRAMS"
fi

# Before 1.90 it asks a registry for the crate that another one of the workspace stands on.
if ! whole 'the crates as they are published'; then
  :
elif [ "$(cargo --version | sed -nE 's/^cargo 1\.([0-9]+).*/\1/p')" -ge 90 ]; then
  check 'both crates are packaged' packaged
  check 'a program uses them' uses_it
else
  echo 'skipped: the crates as they are published, since cargo is older than 1.90'
fi
if whole 'the library by its folder, and linked statically'; then
  check 'the library by its folder' env -u PKG_CONFIG_PATH RTNLC_LIB_DIR="$RTNLC_PREFIX/lib" \
    bash -c "cd '$package' && cargo build --workspace >'$folder/output' 2>&1"
  check 'linked statically' is_static
fi
# of_clone: where pkg-config finds none, the clone around the crates makes the library, and a program has it inside.
none=(env PKG_CONFIG_PATH="$folder/none" PKG_CONFIG_LIBDIR="$folder/none" CARGO_TARGET_DIR="$folder/of_clone")
in_clone() { (cd "$clone/bindings/rust" && "${none[@]}" "$@") >"$folder/output" 2>&1; }
clone=$folder/clone
of_clone() {
  mkdir -p "$clone"/{c,include,crates,bindings} && touch "$clone/crates.txt" && cp -r "$package" "$clone/bindings/" &&
    printf '#!/bin/sh\nmkdir -p "$1" && cp "%s/lib/librtnlc.a" "$1"\n' "$RTNLC_PREFIX" >"$clone/c/build.sh" &&
    chmod +x "$clone/c/build.sh" && in_clone cargo build --example links &&
    ends 2 '' 'links: No such file or directory' \
      env -u LD_LIBRARY_PATH "$folder/of_clone/debug/examples/links" "$folder/nowhere"
}
fails_in_clone() {
  printf '#!/bin/sh\necho one >&2; echo rtnl: the disk is full >&2; exit 3\n' >"$clone/c/build.sh" &&
    ! in_clone cargo build && grep -q 'the clone made no library: rtnl: the disk is full' "$folder/output" &&
    ! in_clone env PKG_CONFIG_PATH="$RTNLC_PREFIX/lib/pkgconfig" \
      cargo build --features vendored && grep -q 'the clone made no library' "$folder/output"
}
is_of_another_version() {
  mkdir -p "$folder/later" && printf 'a\0000.4.1\000librtnlc is proved\000' >"$folder/later/librtnlc.so" &&
    is_refused "$folder/later/librtnlc.so is of another version: '0.4.1'" \
      env RTNLC_LIB_DIR="$folder/later" cargo build
}
if whole 'the library of the clone'; then
  check 'the library of the clone' of_clone
  check 'a clone that makes none' fails_in_clone
fi
check 'a library of another version by its folder' is_of_another_version
check 'no library' is_refused './install --library PREFIX' \
  env PKG_CONFIG_PATH="$folder/none" PKG_CONFIG_LIBDIR="$folder/none" cargo build
for version in 0.2.9 0.4.0 1.0.0; do
  with_version "$version"
  check "a library $version" is_refused './install --library PREFIX' \
    env PKG_CONFIG_PATH="$folder/other" PKG_CONFIG_LIBDIR="$folder/other" cargo build
done
with_version 0.3.7
check 'a library 0.3.7' in_package env PKG_CONFIG_PATH="$folder/other" cargo build
check 'another library at run time' is_other_library links

finish

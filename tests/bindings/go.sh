#!/usr/bin/env bash
# Builds and tests the package for Go, in bindings/go, offline and in a copy of that folder alone,
# over the library that is installed under RTNLC_PREFIX: its tests and the examples of its pages,
# as they are, under the race detector and with each check of cgo; a program of another module that
# uses it; and what is said where the library is missing or is of another version. Its example
# programs are left in the folder that PROGRAMS names, for tests/bindings.sh, which runs them. The
# answers are compared with those of the program that RTNL names, or of the proved one. Packages
# that are missing are installed where that can be. The last line is 'N passed, M failed', and the
# status is 1 where a case failed.
set -u
cd "$(dirname "${BASH_SOURCE[0]}")/../.." || exit 1
top=$PWD
: "${RTNLC_PREFIX:?names the folder under which the library is installed}"
RTNL=${RTNL:-$(tests/helpers/proved.py)} || exit 1
. tests/helpers/cases.sh

tests/helpers/install_packages.sh cc gcc pkg-config pkg-config go golang-go
if ! has go 'the package for Go' || ! has pkg-config 'the package for Go'; then
  finish
  exit
fi

export PKG_CONFIG_PATH=$RTNLC_PREFIX/lib/pkgconfig LD_LIBRARY_PATH=$RTNLC_PREFIX/lib
export GOFLAGS='' GOPROXY=off GOTOOLCHAIN=local GOWORK=off GOCACHE=${GOCACHE:-$folder/cache}
export RTNL RTNLC_REPOSITORY=$top
package=$folder/go
programs=${PROGRAMS:-$folder/programs}
cp -r bindings/go "$package"

# in_package COMMAND..: in the copy; what it prints is shown where it fails.
in_package() { (cd "$package" && "$@") >"$folder/output" 2>&1 || ! tail -n 40 "$folder/output"; }

# prints_nothing COMMAND..: in the copy.
prints_nothing() { in_package "$@" && [ ! -s "$folder/output" ] || ! cat "$folder/output"; }

# has_race: the race detector comes with this Go.
has_race() {
  [ -e "$folder/nothing.go" ] || echo 'package main; func main() {}' >"$folder/nothing.go"
  go build -race -o "$folder/nothing" "$folder/nothing.go" 2>"$folder/output"
}

# tested NAME ARGUMENT..: the tests with these arguments of go test; each test is a case.
tested() {
  local name=$1 line found=0
  shift
  (cd "$package" && go test -count=1 -v "$@" ./...) >"$folder/tests" 2>&1
  local status=$?
  while read -r _ line _ _; do
    check "$name: $line" grep -q "^--- PASS: $line " "$folder/tests"
    found=$((found + 1))
  done < <(sed -nE 's/^=== RUN +([A-Za-z0-9_]+)$/run \1 -/p' "$folder/tests")
  check "$name" test "$status" = 0 -a "$found" -gt 40
  grep -q '^--- SKIP' "$folder/tests" && check "$name: none is skipped" false
  [ "$status" = 0 ] || grep -vE '^(=== RUN|--- PASS|ok )' "$folder/tests" | tail -n 40
}

# makes_module NAME LINE..: another module, which says where the package is, of one file.
makes_module() {
  mkdir "$folder/$1" &&
    printf '%s\n' "module $1" '' 'go 1.19' '' 'require rtnl.invalid/rtnlc v0.3.0' '' \
      "replace rtnl.invalid/rtnlc => $package" >"$folder/$1/go.mod" &&
    printf '%s\n' "${@:2}" >"$folder/$1/main.go"
}

# uses_it: a program of another module.
uses_it() {
  makes_module user 'package main' '' 'import (' '	"fmt"' '' '	"rtnl.invalid/rtnlc"' ')' '' \
    'func main() {' '	messages, err := rtnlc.Parse(make([]byte, 15))' '	fmt.Println(len(messages), err)' '}' &&
    [ "$(cd "$folder/user" && go run . 2>&1)" = '0 rtnlc: cut at 0' ]
}

# finds_copies: go vet says where something is copied that leads to memory of another.
finds_copies() {
  local name names=(Session Stream Builder Tape List 'Table[rtnlc.Link]')
  makes_module copies 'package main' '' 'import "rtnl.invalid/rtnlc"' '' 'func main() {}' \
    "${names[@]/#/func _(it *rtnlc.}" &&
    sed -i 's/^func _.*/&) { copied := *it; _ = \&copied }/' "$folder/copies/main.go" &&
    ! (cd "$folder/copies" && go vet . >"$folder/output" 2>&1) &&
    for name in "${names[@]}"; do
      grep -q "copies lock value to copied: .*\brtnlc\.${name%%[*}.* contains" "$folder/output" || return 1
    done
}

# says_version: over a library of another version a program says which one is here.
says_version() {
  mkdir "$folder/other" && grep -oE '\brtnlc_[a-z0-9_]+\(' include/rtnlc.h | tr -d '(' | sort -u |
    sed 's/.*/const char *&(void) { return "0.4.1"; }/' >"$folder/other.c" &&
    echo 'RTNLC_0.3 { global: rtnlc_*; };' >"$folder/other.map" &&
    cc -shared -fPIC -Wl,-soname,librtnlc.so.0 -Wl,--version-script="$folder/other.map" \
      -o "$folder/other/librtnlc.so.0" "$folder/other.c" &&
    ! LD_LIBRARY_PATH=$folder/other "$programs/links" 2>"$folder/output" &&
    grep -q 'librtnlc 0.4.1 is here, and this package needs 0.3: install that' "$folder/output"
}

# says_missing: without the library, the build of another copy says what it looked for.
says_missing() {
  cp -r bindings/go "$folder/copy" &&
    ! (cd "$folder/copy" && PKG_CONFIG_PATH='' go build . >"$folder/output" 2>&1) &&
    grep -q 'Package rtnlc was not found' "$folder/output"
}

# is_for_another: with a header of another version the compiler says what is needed.
is_for_another() {
  mkdir "$folder/later" && sed 's/^#define RTNLC_ABI .*/#define RTNLC_ABI 4/' include/rtnlc.h >"$folder/later/rtnlc.h" &&
    ! in_package env CGO_CFLAGS="-I$folder/later" PKG_CONFIG=true go build . >/dev/null &&
    grep -q 'the package rtnlc needs librtnlc 0.3: ./install --library PREFIX' "$folder/output"
}

# says_why WORDS NAME=VALUE..: where it can't be built, one line says why.
says_why() {
  ! in_package env "${@:2}" go build . >/dev/null && [ "$(wc -l <"$folder/output")" = 1 ] &&
    grep -q "found packages rtnlc_is_for_$1 (" "$folder/output"
}

# of_clone: the clone around the package makes the library, and a program has it inside.
of_clone() {
  local clone=$folder/clone
  mkdir -p "$clone"/{c,bindings} && cp -r include "$clone" && cp -r bindings/go "$clone/bindings" &&
    printf '#!/bin/sh\nmkdir -p "$1" && cp "%s/lib/librtnlc.a" "$1"\n' "$RTNLC_PREFIX" >"$clone/c/build.sh" &&
    chmod +x "$clone/c/build.sh" && (
    cd "$clone/bindings/go" && unset PKG_CONFIG_PATH LD_LIBRARY_PATH && go generate &&
      go build -tags rtnlc_beside -o "$folder/beside" ./examples/links && ! ldd "$folder/beside" | grep librtnlc
  ) && "$folder/beside" "$folder/nowhere" 2>&1 | grep -q 'No such file'
}

# has_version: the versions of the package, of the changes and of the library are one.
has_version() {
  local version
  version=$(pkg-config --modversion rtnlc) &&
    grep -qx "const Version = \"$version\"" bindings/go/library.go &&
    [ "$(sed -n 's/^## //p' bindings/go/CHANGELOG.md | head -n 1)" = "$version" ]
}

# is_short LINES FILE..: each file has at most so many lines.
is_short() {
  local file
  for file in "${@:2}"; do [ "$(wc -l <"$file")" -le "$1" ] || return 1; done
}

check 'gofmt' prints_nothing gofmt -l .
check 'go vet' prints_nothing go vet ./...
check 'go build' prints_nothing go build ./...
mkdir -p "$programs"
check 'the example programs' \
  in_package go build -o "$programs/" ./examples/{links,routes,watch,link_up,route_add}
check 'the example programs are short' \
  is_short 60 bindings/go/examples/{links,routes,watch,link_up}/main.go
check 'what adds routes is short' is_short 85 bindings/go/examples/route_add/main.go
check 'what they share is short' is_short 120 bindings/go/examples/source/source.go
if whole '98,000 of 100,000 mutations, cgocheck=2, and -race'; then
  tested 'go test'
  GODEBUG=cgocheck=2 tested 'go test with cgocheck=2'
  has_race || tests/helpers/install_packages.sh "$(go env GOROOT)/src/runtime/race" golang-src
  if has_race; then
    tested 'go test -race' -race
  else
    echo 'skipped: go test -race, since this Go has no race detector'
  fi
else
  tested 'go test' -short
fi
check 'a program of another module' uses_it
check 'go vet finds copies' finds_copies
check 'a library of another version' says_version
check 'no library' says_missing
whole 'a header of another version' && check 'a header of another version' is_for_another
check 'no cgo' says_why C__set_CGO_ENABLED_1_and_have_a_compiler_of_C CGO_ENABLED=0
check 'another processor' says_why Linux_on_amd64 GOARCH=arm64 CGO_ENABLED=1
whole 'the library of the clone' && check 'the library of the clone' of_clone
check 'its version' has_version
finish

#!/usr/bin/env bash
# Installs the library for C under a prefix of its own, and over it builds and tests the packages
# for Rust, Go and Python, each by its script in tests/bindings/. Then it runs the programs `links`,
# `routes`, `watch`, `link_up` and `route_add` of each of them and those of examples/c: over a kernel
# that a test plays, and over the kernel itself where a network namespace can be made. Where
# RTNLC_PREFIX is set already, the library is the one that is installed there. Packages that are
# missing are installed where that can be, and what can't run says so and isn't counted. The last
# line is 'N passed, M failed', and the status is 1 where a case failed.
set -u
cd "$(dirname "${BASH_SOURCE[0]}")/.." || exit 1
top=$PWD
RTNL=${RTNL:-$(tests/helpers/proved.py)} || exit 1
export RTNL
. tests/helpers/cases.sh
. tests/helpers/namespace.sh
unset DESTDIR libdir

tests/helpers/install_packages.sh cc gcc pkg-config pkg-config cargo cargo go golang-go mypy mypy \
  ip iproute2 /usr/share/doc/python3-venv python3-venv

if [ -z "${RTNLC_PREFIX-}" ]; then
  export RTNLC_PREFIX=$folder/prefix
  makes_library "$folder/library" && RTNL_BUILD=no ./install --library "$RTNLC_PREFIX" >/dev/null ||
    exit 1
fi
tests/helpers/proved.py --take "$RTNLC_PREFIX/lib/librtnlc.so.0" || exit 1
export PKG_CONFIG_PATH=$RTNLC_PREFIX/lib/pkgconfig LD_LIBRARY_PATH=$RTNLC_PREFIX/lib
flags() { pkg-config "$@" rtnlc; }

# The datagrams in the cases of the program, whole and broken, which each package takes too.
export RTNL_DATAGRAMS=$folder/program.hex
grep -ohE '\b[0-9a-f]{8}[0-9a-f ]{24,}' tests/program.sh tests/program/*.sh | tr -d ' ' |
  awk 'length % 2 == 0' | sort -u >"$RTNL_DATAGRAMS"
check 'datagrams in the cases of the program' [ "$(wc -l <"$RTNL_DATAGRAMS")" -ge 80 ]

# adds COMMAND..: a script that counts cases. What it says is shown, and its cases are counted here;
# one that fails otherwise than by a case is one that failed.
adds() {
  local status found wrong
  "$@" >"$folder/said" 2>&1
  status=$?
  sed '$d' "$folder/said"
  read -r found wrong < <(sed -nE '$s/^([0-9]+) passed, ([0-9]+) failed$/\1 \2/p' "$folder/said")
  [ -n "${found-}" ] || tail -n 1 "$folder/said"
  [ "$status" = 0 ] || [ "${wrong:-0}" != 0 ] || wrong=1
  echo "$(basename "$1"): ${found:-0} passed, ${wrong:-0} failed"
  passed=$((passed + ${found:-0})) failed=$((failed + ${wrong:-0}))
}

programs=(links routes watch link_up route_add)

# in_c FOLDER ARGUMENT..: the examples in C, built with these arguments of the compiler.
in_c() {
  local name
  mkdir -p "$1" && for name in "${programs[@]}"; do
    # shellcheck disable=SC2046
    cc -std=c99 -O2 -Wall -Wextra -pedantic -Werror $(flags --cflags) "examples/c/$name.c" \
      "${@:2}" -o "$1/$name" || return 1
  done
}

languages=()
# offers NAME FOLDER: the programs of a language, where they were built.
offers() { [ ! -x "$2/route_add" ] || languages+=("$1" "${programs[@]/#/$2/}"); }

for name in rust go python; do
  PROGRAMS=$folder/$name adds "tests/bindings/$name.sh"
done

if whole 'the examples in C with librtnlc.a'; then
  check 'the examples in C with librtnlc.a' in_c "$folder/static" "$RTNLC_PREFIX/lib/librtnlc.a"
  offers 'C with librtnlc.a' "$folder/static"
fi
# shellcheck disable=SC2046
check 'the examples in C with librtnlc.so' in_c "$folder/shared" $(flags --libs)
offers 'C with librtnlc.so' "$folder/shared"
# These two scripts have left their programs, where they could build them.
has cargo 'the programs in Rust' && check 'the programs in Rust' [ -x "$folder/rust/route_add" ]
offers Rust "$folder/rust"
has go 'the programs in Go' && check 'the programs in Go' [ -x "$folder/go/route_add" ]
offers Go "$folder/go"
python="env RTNLC_LIB_DIR=$RTNLC_PREFIX/lib PYTHONPATH=$top/bindings/python/src python3 -B"
examples=$top/bindings/python/examples
languages+=(Python)
for name in "${programs[@]}"; do languages+=("$python $examples/$name.py"); done
adds tests/bindings/live.py "${languages[@]}"

# This one opens no socket but the kernel's.
if in_namespace ip link set lo up; then
  # shellcheck disable=SC2086
  check 'first.py names the links of a namespace' names_links $python "$examples/first.py"
else
  echo 'skipped: first.py over a socket, since no network namespace can be made here'
fi

finish

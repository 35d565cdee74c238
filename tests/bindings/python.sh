#!/usr/bin/env bash
# Makes the wheel of bindings/python, offline and in a clean copy of the folder alone, installs it
# in a virtual environment and runs its tests with every warning an error, some of them under
# valgrind; and its types are checked. RTNLC_PREFIX is where the library for C is installed, and
# RTNL the program rtnl, or else the one that is proved. Packages that are missing are installed
# where that can be, and what can't run says so and isn't counted. The last line is
# 'N passed, M failed', and the status is 1 where a case failed.
set -u
cd "$(dirname "${BASH_SOURCE[0]}")/../.." || exit 1
. tests/helpers/cases.sh
[ -e "${RTNLC_PREFIX:?is where the library is installed}/lib/librtnlc.so.0" ] || exit 1
RTNL=${RTNL:-$(tests/helpers/proved.py)} || exit 1
export RTNL RTNLC_PREFIX PYTHONDONTWRITEBYTECODE=1 MYPY_CACHE_DIR=$folder/mypy
unset RTNLC_LIB_DIR LD_LIBRARY_PATH PKG_CONFIG_PATH PYTHONPATH

tests/helpers/install_packages.sh cc gcc pkg-config pkg-config valgrind valgrind mypy mypy \
  /usr/bin/python3 python3 "$(compgen -G '/usr/lib/python3*/ensurepip/__init__.py')" python3-venv
system=/usr/bin/python3
[ -x "$system" ] || system=python3
package=bindings/python
python=$folder/environment/bin/python
copy=$folder/python

# quiet COMMAND..: its output is shown where it fails alone.
quiet() { "$@" >"$folder/output" 2>&1 || ! cat "$folder/output"; }

# whole_copy: the folder without what git leaves out.
whole_copy() {
  rm -rf "$copy" && cp -r "$package" "$copy" &&
    find "$copy" \( -name __pycache__ -o -name '*.so.0' \) -prune -exec rm -r {} +
}

# install NAME=VALUE ..: the wheel is made of the copy, in this environment, and installed.
install() {
  quiet env "$@" "$python" -m pip install --no-index --no-build-isolation --no-deps \
    --force-reinstall "$copy"
}

# refuses_without_library: pip fails, and says how the library is installed.
refuses_without_library() {
  ! env RTNLC_LIB_DIR="$folder/none" "$python" -m pip install --no-index --no-build-isolation \
    "$copy" >"$folder/output" 2>&1 &&
    grep -q 'there is no librtnlc.so.0 for the wheel.*./install --library PREFIX' "$folder/output"
}

# build NAME: a wheel in a folder of this name.
build() {
  mkdir -p "$folder/$1" && quiet env RTNLC_LIB_DIR="$RTNLC_PREFIX/lib" "$python" -m pip wheel \
    --no-index --no-build-isolation --no-deps --wheel-dir "$folder/$1" "$copy"
}
wheel_of() { echo "$folder/$1/rtnl-$wheel_version-py3-none-$platform.whl"; }
is_same_again() { build again && cmp "$(wheel_of once)" "$(wheel_of again)"; }

# in_wheel FILE: what a wheel holds: each source, the library, and six texts.
in_wheel() { "$python" -m zipfile -l "$1" | awk 'NR > 1 { print $1 }' | sort; }
wanted_in_wheel() {
  local info=rtnl-$wheel_version.dist-info
  (cd "$copy/src" && find rtnl -type f)
  printf '%s\n' rtnl/librtnlc.so.0 "$info"/{METADATA,RECORD,WHEEL} \
    "$info"/licenses/{LICENSE-APACHE,LICENSE-MIT,NOTICE}
}
holds_all() { diff <(in_wheel "$(wheel_of once)") <(wanted_in_wheel | sort); }
holds_library() {
  "$python" -c 'import sys, zipfile
sys.stdout.buffer.write(zipfile.ZipFile(sys.argv[1]).read("rtnl/librtnlc.so.0"))' \
    "$(wheel_of once)" | cmp - "$RTNLC_PREFIX/lib/librtnlc.so.0"
}

# build_without: a wheel without the library, by pip's setting, where there is none.
build_without() {
  mkdir "$folder/without" && quiet env RTNLC_LIB_DIR="$folder/none" "$python" -m pip wheel \
    --no-index --no-build-isolation --no-deps --config-settings library=system \
    --wheel-dir "$folder/without" "$copy"
}
wheel_without() { echo "$folder/without/rtnl-$version-py3-none-any.whl"; }
holds_all_but_library() {
  diff <(in_wheel "$(wheel_without)") <(wheel_version=$version wanted_in_wheel | grep -v '\.so\.0$' | sort)
}

# loads_system: that wheel, installed, loads the library that the loader finds.
loads_system() {
  quiet "$python" -m pip install --no-index --no-deps --force-reinstall "$(wheel_without)" &&
    [ "$(LD_LIBRARY_PATH=$RTNLC_PREFIX/lib "$python" -c 'import pathlib, rtnl
words = pathlib.Path("/proc/self/maps").read_text().split()
print(*{it for it in words if it.endswith("/librtnlc.so.0")})')" = \
      "$(readlink -f "$RTNLC_PREFIX/lib/librtnlc.so.0")" ]
}

# from_archive: a wheel of the archive of the sources, which is the same.
from_archive() {
  mkdir "$folder/archive" && (cd "$copy/backend" &&
    quiet "$python" -c 'import rtnl_wheel, sys; rtnl_wheel.build_sdist(sys.argv[1])' \
      "$folder/archive") && tar -C "$folder/archive" -xzf "$folder/archive/rtnl-$version.tar.gz" &&
    diff -r -x PKG-INFO -x .gitignore "$copy" "$folder/archive/rtnl-$version"
}

# install_of_beside: the same of a library that lies beside the sources, which is no part of them.
install_of_beside() {
  cp "$RTNLC_PREFIX/lib/librtnlc.so.0" "$copy/src/rtnl/" &&
    install PKG_CONFIG_PATH=/none && whole_copy
}

# is_editable: a program finds the sources and the library beside them.
is_editable() {
  quiet env RTNLC_LIB_DIR="$RTNLC_PREFIX/lib" "$python" -m pip install --no-index \
    --no-build-isolation --no-deps --force-reinstall --editable "$copy" &&
    [ "$("$python" -c 'import rtnl; print(rtnl.__file__, rtnl.scan(b"").code.name)')" = \
      "$copy/src/rtnl/__init__.py OK" ] && whole_copy
}

shows_why() { ! tail -n 40 "$folder/output"; }

# run_tests WHAT WORD..: each test is a case.
run_tests() {
  local what=$1 counts
  shift
  "$@" >"$folder/output" 2>&1
  counts=$(sed -nE '$s/^([0-9]+) passed, ([0-9]+) failed$/\1 \2/p' "$folder/output")
  if [ -z "$counts" ]; then
    check "$what" shows_why
    return
  fi
  sed '$d' "$folder/output"
  passed=$((passed + ${counts% *}))
  failed=$((failed + ${counts#* }))
}

has_types() {
  (cd "$package" && quiet mypy --config-file pyproject.toml src backend examples tests)
}

# has_own_types: mypy finds the types of the package that is installed.
has_own_types() {
  printf '%s\n' 'import rtnl' 'from typing import Optional' '' \
    'name: Optional[str] = next(rtnl.Datagram(b"").views(rtnl.Link)).name' >"$folder/client.py"
  quiet mypy --strict --python-executable "$python" "$folder/client.py" &&
    sed -i 's/Optional\[str\]/int/' "$folder/client.py" &&
    ! mypy --strict --python-executable "$python" "$folder/client.py" >"$folder/output" 2>&1 &&
    grep -q 'Incompatible types in assignment' "$folder/output"
}

# under_valgrind WORD..: the interpreter with these words, and valgrind's log in a file. Python's
# own leaks are no errors.
under_valgrind() {
  local suppressions=/usr/lib/valgrind/python3.supp
  [ -e "$suppressions" ] || suppressions=/dev/null
  PYTHONMALLOC=malloc MUTATIONS=1000 quiet valgrind --suppressions="$suppressions" \
    --leak-check=full --show-leak-kinds=definite,possible --errors-for-leak-kinds=none \
    --num-callers=40 --log-file="$folder/valgrind" "$python" "$@"
}
names_library() { grep -q '/librtnlc\.so\.0)$' "$folder/valgrind"; }

# is_clean: no error at all, and no leak of what the library took.
is_clean() {
  under_valgrind "$package/tests" buffers builder dumps mutated refusals requests \
    subclasses views &&
    grep -q 'ERROR SUMMARY: 0 errors ' "$folder/valgrind" && ! names_library
}

# finds_a_leak: a session that is never freed is reported so.
finds_a_leak() {
  under_valgrind -c 'import rtnl
rtnl.Session._free = lambda pointer: None
rtnl.Session()' && names_library
}

for name in LICENSE-MIT LICENSE-APACHE NOTICE; do
  check "$name is that of the repository" cmp "$name" "$package/$name"
done
check 'a virtual environment' quiet "$system" -m venv "$folder/environment"
check 'a clean copy' whole_copy
version=$(sed -n 's/^VERSION = "\(.*\)"/\1/p' "$copy/src/rtnl/_loading.py")
platform=manylinux2014_$(uname -m)
wheel_version=$(strings "$RTNLC_PREFIX/lib/librtnlc.so.0" | grep -xE -m 1 "$version([+]unproved)?")
check 'no library' refuses_without_library
check 'a wheel' build once
check 'the name of the wheel' test -e "$(wheel_of once)"
check 'all that the wheel holds' holds_all
check 'the library in the wheel' holds_library
check 'a wheel without the library' build_without
check 'all that it holds' holds_all_but_library
check 'it loads the library of the system' loads_system
if whole 'the wheel once more, in other ways, and the archive of the sources'; then
  check 'the same wheel again' is_same_again
  check 'the archive of the sources' from_archive
  check 'an editable installation' is_editable
  check 'the wheel by pkg-config' install PKG_CONFIG_PATH="$RTNLC_PREFIX/lib/pkgconfig"
  check 'the wheel of a library beside the sources' install_of_beside
fi
check 'the wheel by RTNLC_LIB_DIR' install RTNLC_LIB_DIR="$RTNLC_PREFIX/lib"

whole '98,000 of 100,000 mutations' || export MUTATIONS=2000
run_tests 'the tests' "$python" -X dev -W error "$package/tests"
# Other versions of Python, where they are here.
others=(python3.9 python3.10 python3.12 python3.13 python3.14)
whole 'other versions of Python' || others=()
for other in "${others[@]}"; do
  if "$other" -c '' 2>/dev/null; then
    run_tests "the tests by $other" env MUTATIONS=10000 PYTHONPATH="$package/src" \
      RTNLC_LIB_DIR="$RTNLC_PREFIX/lib" "$other" -X dev -W error "$package/tests"
  fi
done
if has mypy 'the types'; then
  check 'the types of all' has_types
  if whole 'the types of the package that is installed'; then
    check 'the types of the package that is installed' has_own_types
  fi
fi
if whole 'the tests under valgrind' && has valgrind 'the tests under valgrind'; then
  check 'valgrind finds a session that is not freed' finds_a_leak
  check 'valgrind finds nothing in the tests' is_clean
fi

finish

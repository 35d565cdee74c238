#!/usr/bin/env bash
# Makes librtnlc.a, librtnlc.so.0 and the link librtnlc.so in FOLDER: the calls of crates/rtnl_c,
# the functions by which they take memory, and c/rtnlc.c, in one object whose only public names are
# the functions of include/rtnlc.h. The static library of rtnl_c is built first where it is missing
# or older than a source, and with RTNL_PROVE=1 it is a proved one; launch/build.py says how. CC,
# CPPFLAGS, CFLAGS and LDFLAGS are taken of the environment.
set -eu
[ "$#" = 1 ] || { echo 'usage: c/build.sh FOLDER' >&2; exit 2; }
mkdir -p -- "$1"
to=$(cd -- "$1" && pwd)
cd "$(dirname "$(readlink -f "${BASH_SOURCE[0]}")")/.."
stop() { echo "build.sh: $*" >&2; exit 3; }
needed='the kit, Python, a C compiler, which CC names, and binutils'
for tool in rt python3 "${CC:-cc}" ld objcopy ar; do
  command -v "${tool%% *}" >/dev/null ||
    stop "$tool is not on the PATH; what is needed is $needed"
done
# tool NAME: that of binutils for the machine of the compiler.
tool() { ${CC:-cc} -print-prog-name="$1"; }
machine=$(${CC:-cc} -dumpmachine)
kit=$(readlink -f "$(command -v rt)")
memory=${kit%/bin/*}/c/liblibc_c.a
folder=$(mktemp -d)
trap 'rm -rf "$folder"' EXIT
# It needs less, in kilobytes.
[ "$(df -k --output=avail "$folder" | tail -n 1)" -ge 8192 ] ||
  stop "the disk of ${folder%/*} is full; TMPDIR names another folder"

# end NUMBER: this signal ends the build too, which then leaves nothing half made.
building=''
end() {
  if [ -n "$building" ]; then
    kill "$building" 2>/dev/null || true
    wait "$building" || true
  fi
  exit "$((128 + $1))"
}
trap 'end 1' HUP
trap 'end 2' INT
trap 'end 15' TERM
launch/build.py library >"$folder/archive" &
building=$!
wait "$building" || exit
building=''
archive=$(<"$folder/archive")
# What the kit built of what it proved names the logic of the proof.
proved=$(grep -qaF 'rattle logic=' "$archive" && echo -DRTNLC_PROVED) || true

# For another processor the same code is compiled once more, but for what is of the first one.
case ${machine%%-*} in
  x86_64) ;;
  aarch64)
    code=${archive%.a}.ll
    [ -e "$code" ] || stop "for $machine it is made of what is not proved, and here it is proved"
    sed -E '/^target /d; s/ "(target-cpu|probe-stack|stack-probe-size)"="[^"]*"//g' "$code" \
      >"$folder/code.ll"
    "${kit%/bin/*}/toolchain/bin/clang" "--target=$machine" -Wno-override-module -O3 -fPIC -ffunction-sections \
      -c "$folder/code.ll" -o "$folder/code.o"
    ${CC:-cc} -std=c99 -O2 -fPIC -ffunction-sections -c c/memory.c -o "$folder/memory.o"
    archive=$folder/code.o memory=$folder/memory.o
    ;;
  *) stop "the library is for x86-64 and for arm64, and not for $machine" ;;
esac

# The names that the header declares, and those of the proved calls, which give way to them.
grep -oE '\brtnlc_[a-z0-9_]+\(' include/rtnlc.h | tr -d '(' | sort -u >"$folder/names"
sed 's/rtnlc_\(.*\)/rtnlc_\1 proved_\1/' "$folder/names" >"$folder/renamed"
# Of a shared library they carry the first two numbers of the version: a program that was linked
# with other ones is not loaded, since it may have other structs.
node=$(sed -nE 's/^#define RTNLC_VERSION "([0-9]+\.[0-9]+)\..*/RTNLC_\1/p' include/rtnlc.h)
{
  echo "$node { global:"
  sed 's/$/;/' "$folder/names"
  echo 'local: *; };'
} >"$folder/versions"

# What stands behind the flags of the environment is so whatever they say: ld joins the object with
# the proved code.
# shellcheck disable=SC2086
${CC:-cc} -std=c99 -O2 -Wall -Wextra -Iinclude $proved ${CPPFLAGS-} ${CFLAGS-} \
  -fPIC -ffunction-sections -fno-lto -c c/rtnlc.c -o "$folder/calls.o"
"$(tool ld)" -r --whole-archive "$archive" -o "$folder/proved.o"
"$(tool objcopy)" --redefine-syms="$folder/renamed" "$folder/proved.o"
"$(tool ld)" -r "$folder/proved.o" "$folder/calls.o" "$memory" -o "$folder/rtnlc.o"
"$(tool objcopy)" --keep-global-symbols="$folder/names" "$folder/rtnlc.o"

# Each file takes its place at once.
"$(tool ar)" rcsD "$folder/librtnlc.a" "$folder/rtnlc.o"
# shellcheck disable=SC2086
${CC:-cc} -shared -Wl,-soname,librtnlc.so.0 -Wl,--version-script="$folder/versions" \
  -Wl,--gc-sections -Wl,-z,defs,-z,text,-z,relro,-z,now ${LDFLAGS-} \
  -o "$folder/librtnlc.so.0" "$folder/rtnlc.o"
ln -s librtnlc.so.0 "$folder/librtnlc.so"
mv -f -- "$folder/librtnlc.a" "$folder/librtnlc.so.0" "$folder/librtnlc.so" "$to"

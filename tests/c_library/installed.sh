# The library under a prefix of its own, as a user builds with it.

prefix=$folder/prefix
link=$prefix/lib/librtnlc.so
page=share/man/man3/rtnlc.3
# Neither is the tester's own.
unset DESTDIR libdir

# library_in FOLDER: what is put, with the library in this folder of the prefix.
library_in() {
  printf '%s\n' include/rtnlc.h "$1"/{librtnlc.a,librtnlc.so.0,librtnlc.so,pkgconfig/rtnlc.pc} \
    "$page" share/rtnl/installed
}
mapfile -t library_things < <(library_in lib)

# each WORD NAME..: a line for each thing that is put or removed.
each() { printf "$1 $prefix/%s\n" "${@:2}"; }

# note WORD FILE: the line behind an installation of the program or the library, where that is not proved.
note() {
  tests/helpers/proved.py "$2" || echo "install: the $1 is not proved on this machine; --proved proves it first"
}

# does STATUS OUTPUT ARGUMENT..: install with these arguments ends so and prints these lines.
does() {
  local status=$1 output=$2
  shift 2
  ./install "$@" >"$folder/output" 2>&1
  # Over what rt ci built it says how long that takes.
  [ $? = "$status" ] && [ "$(sed 's/\( proves it first\), in .*/\1/' "$folder/output")" = "$output" ]
}

# is_left: what stands where the link would is all that is there; then it is removed.
is_left() { [ "$(find "$prefix" ! -type d)" = "$link" ] && rm -r "$prefix"; }

# leaves_own: a file of another origin stands where the link would, and nothing is put beside it.
leaves_own() {
  mkdir -p "$prefix/lib" && echo mine >"$link" &&
    does 1 "install: $link is there and was not installed by this script; nothing was installed" \
      --library "$prefix" && is_left
}

# leaves_changed: a link that points elsewhere now is left where all else is removed.
leaves_changed() {
  ./install --library "$prefix" >/dev/null && ln -sfn other "$link" &&
    ./install --remove "$prefix" 2>"$folder/output" >/dev/null
  [ $? = 1 ] && is_left &&
    grep -qx "install: $link was changed since it was installed; it is left" "$folder/output"
}

# flags: what pkg-config says of the library that is installed.
flags() { PKG_CONFIG_PATH=$prefix/lib/pkgconfig pkg-config "$@" rtnlc; }

# has_files FOLDER NAME..: these files are in the folder, and no others.
has_files() {
  diff <(cd "$1" && find . ! -type d -printf '%P\n' | sort) <(printf '%s\n' "${@:2}" | sort)
}

# has_lines FILE LINE..: these lines stand in it.
has_lines() {
  local line
  for line in "${@:2}"; do grep -qxF -- "$line" "$1" || return 1; done
}

# in_libdir FOLDER WORD..: with install's words, or an environment, the library is in this folder
# of the prefix, as rtnlc.pc says too, and all of it is removed again.
in_libdir() {
  local put=$1
  mapfile -t files < <(library_in "$put")
  shift
  "$@" --library "$prefix" >/dev/null && has_files "$prefix" "${files[@]}" &&
    has_lines "$prefix/$put/pkgconfig/rtnlc.pc" "prefix=$prefix" "libdir=\${prefix}/$put" &&
    ./install --remove "$prefix" >/dev/null && [ ! -e "$prefix" ]
}

# in_both: in one folder and then in another, it is removed from both.
in_both() {
  ./install --library "$prefix" >/dev/null &&
    ./install --library --libdir lib64 "$prefix" >/dev/null &&
    [ -e "$prefix/lib/librtnlc.a" ] && [ -e "$prefix/lib64/librtnlc.a" ] &&
    ./install --remove "$prefix" >/dev/null && [ ! -e "$prefix" ]
}

# staged LIBDIR: a package is made under a folder that no file names, the record neither.
staged() {
  local stage=$folder/stage
  mapfile -t files < <(library_in "$1")
  mkdir "$stage" &&
    DESTDIR=$stage does 0 "$(library_in "$1" | sed "s|^|installed $stage/usr/|" && note library "$archive")" \
      --library --libdir "/usr/$1" /usr &&
    has_files "$stage/usr" "${files[@]}" &&
    has_lines "$stage/usr/$1/pkgconfig/rtnlc.pc" prefix=/usr "libdir=\${prefix}/$1" &&
    [ -z "$(grep -rlF "$stage" "$stage")" ] &&
    DESTDIR=$stage does 0 "$(library_in "$1" | sed "s|^|removed $stage/usr/|")" --remove /usr &&
    [ -z "$(ls -A "$stage")" ] && rmdir "$stage"
}

# leaves_own_staged: what stands under the folder already is not replaced.
leaves_own_staged() {
  local stage=$folder/stage own=usr/include/rtnlc.h
  mkdir -p "$stage/usr/include" && echo mine >"$stage/$own" && DESTDIR=$stage does 1 \
    "install: $stage/$own is there and was not installed by this script; nothing was installed" \
    --library /usr && has_files "$stage" "$own" && rm -r "$stage"
}

version=$(sed -n 's/^## \([0-9]\)/\1/p' CHANGELOG.md | head -n 1)
program_things=(bin/rtnl share/man/man1/rtnl.1 share/bash-completion/completions/rtnl
  share/zsh/site-functions/_rtnl share/fish/vendor_completions.d/rtnl.fish
  share/rtnl/rtnl.jq share/rtnl/rtnl.schema.json bin/rtnl-record share/man/man1/rtnl-record.1
  share/bash-completion/completions/rtnl-record share/zsh/site-functions/_rtnl-record
  share/fish/vendor_completions.d/rtnl-record.fish)
for module in record/*.py; do program_things+=("share/rtnl-record/${module##*/}"); done
! packaging/page.py >/dev/null || program_things+=(share/rtnl/rtnl.html)

library=$(each installed "${library_things[@]}" && note library "$archive")

check 'a link in the way' leaves_own
check 'a link that was changed' leaves_changed
check 'not both at once' does 2 'install: --library and --remove exclude each other; see --help' \
  --library --remove "$prefix"
check 'a folder for the program' does 2 'install: --libdir goes with --library; see --help' \
  --libdir lib64 "$prefix"
no_dir='install: --libdir has no DIR; see --help'
check 'no folder' does 2 "$no_dir" --library "$prefix" --libdir
check 'an empty folder' does 2 "$no_dir" --library --libdir= "$prefix"
outside=(/usr/lib64 /usr/lib64 .. "$folder" ../lib "$folder/lib" "$prefix" "$prefix"
  "${prefix}2/lib" "${prefix}2/lib")
for ((at = 0; at < ${#outside[@]}; at += 2)); do
  check "${outside[at]} is outside" does 2 \
    "install: the folder of the library, ${outside[at + 1]}, is not under PREFIX; see --help" \
    --library --libdir "${outside[at]}" "$prefix"
done
check 'nothing is put in any of these' [ ! -e "$prefix" ]
check 'the library in lib64' in_libdir lib64 ./install --libdir lib64
check 'a package' staged lib
if whole 'the library in other folders'; then
  check 'the library in a folder of lib' in_libdir lib/x86_64-linux-gnu \
    env libdir=lib/x86_64-linux-gnu ./install
  check 'the library in a folder by its path' in_libdir lib64 ./install "--libdir=$prefix/lib64/"
  check 'the option before the environment' \
    in_libdir lib32 env libdir=lib64 ./install --libdir lib32
  check 'the library in one folder and in another' in_both
  check 'a package with a folder' staged lib/x86_64-linux-gnu
  check 'a package over another file' leaves_own_staged
fi
check 'the library is installed' does 0 "$library" --library "$prefix"
check 'the library is removed' does 0 "$(each removed "${library_things[@]}")" \
  --remove "$prefix"
check 'nothing is left' [ ! -e "$prefix" ]
check 'the program is installed' \
  does 0 "$(each installed "${program_things[@]}" share/rtnl/installed && note program "$program")" "$prefix"
check 'the library is installed beside it' does 0 "$library" --library "$prefix"
check 'both are removed' \
  does 0 "$(each removed "${program_things[@]}" "${library_things[@]}")" --remove "$prefix"
check 'nothing is left of both' [ ! -e "$prefix" ]
check 'the library is installed again' does 0 "$library" --library "$prefix"
check 'and over itself' does 0 "$library" --library "$prefix"
check 'the link' [ "$(readlink "$prefix/lib/librtnlc.so")" = librtnlc.so.0 ]
check 'the header' cmp include/rtnlc.h "$prefix/include/rtnlc.h"
check 'the version of the header' has_lines include/rtnlc.h "#define RTNLC_VERSION \"$version\""
check 'the version of the manual page' \
  has_lines "$prefix/$page" "This page is of version $version."
check 'nothing of the manual page is still to be replaced' [ -z "$(grep @ "$prefix/$page")" ]
if has pkg-config 'what pkg-config says'; then
  check 'its version' [ "$(flags --modversion)" = "$version" ]
  check 'its flags' \
    [ "$(flags --cflags --libs | xargs)" = "-I$prefix/include -L$prefix/lib -lrtnlc" ]
fi

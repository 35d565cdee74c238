# The packages in a root that has the C library of this machine, then its Python too, and nothing
# else, and the archive unpacked there: the program prints a DONE, also one that rtnl-record reads,
# and so does a program in C that pkg-config built.

root=$folder/root
chroot=$(command -v chroot)
line=1400000003000200010000003930000000000000
text='datagram 1 bytes 20
message 3 done flags 0x0002 MULTI seq 1 port 12345
  done status 0 tail -'

# taken PACKAGE VERSION WORD: a package that dpkg takes for installed, by its record of it.
taken() {
  printf '%s\n' "Package: $1" 'Status: install ok installed' "Version: $2" 'Architecture: amd64' \
    "Multi-Arch: $3" 'Maintainer: none <none@invalid>' 'Description: none' ''
}

# libraries FILE..: what they are linked with comes into the root.
libraries() {
  ldd "$@" | sed -nE 's|.* => (/[^ ]+) .*|\1|p' | sort -u |
    xargs -d '\n' cp -L -t "$root/lib/x86_64-linux-gnu"
}

# new_root LIBC PYTHON: a root that takes these versions of the C library and of Python for
# installed, and has the first.
new_root() {
  local info=$root/var/lib/dpkg/info
  rm -rf "$root" && mkdir -p "$root"/{lib64,tmp,lib/x86_64-linux-gnu} \
    "$info" "$root/var/lib/dpkg/updates" && cp -L /lib64/ld-linux-x86-64.so.2 "$root/lib64" &&
    libraries /bin/true && { taken libc6 "$1" same && taken python3 "$2" allowed; } \
    >"$root/var/lib/dpkg/status" && touch "$info"/{libc6:amd64,python3}.{list,md5sums}
}

# add_python: Python comes into the root, with its library and what finds it.
add_python() {
  local program library=$root/usr/lib
  program=$(python3 -c 'import os, sys; print(os.path.realpath(sys.executable))') &&
    mkdir -p "$library" "$root/usr/bin" && cp "$program" "$root/usr/bin/python3" &&
    cp -L /usr/bin/env "$root/usr/bin" &&
    tar -C "$(python3 -c 'import sysconfig; print(sysconfig.get_path("stdlib"))')/.." -c \
      --exclude={test,site-packages,dist-packages,__pycache__,'config-*'} "$standard" |
    tar -C "$library" -x && libraries "$program" /usr/bin/env "$library/$standard"/lib-dynload/*.so
}
dpkg_in() { dpkg --root="$root" --log=/dev/null "$@" >"$folder/dpkg" 2>&1 </dev/null; }
in_root() { PATH=/usr/bin "$chroot" "$root" "$@"; }

# shows COMMAND..: it prints the three lines of a DONE.
shows() { [ "$("$@" <<<"$line")" = "$text" ]; }
has_no_tools() { [ -z "$(find "$root" -type f -perm /111 ! -name '*.so.*')" ]; }

# records: rtnl-record reads the datagram as xxd prints it, and the program shows it.
records() {
  printf '%s\n' '00000000: 1400 0000 0300 0200 0100 0000 3930 0000  ............90..' \
    '00000010: 0000 0000                                ....' |
    in_root /usr/bin/rtnl-record xxd - >"$folder/recorded" &&
    [ "$(in_root /usr/bin/rtnl show <"$folder/recorded")" = "$text" ]
}

# installs, removes: all packages at once, and nothing of them is left.
installs() { dpkg_in -i "${debs[@]/#/"$made/"}" || ! cat "$folder/dpkg"; }
removes() {
  dpkg_in -P "${debs[@]%%_*}" && [ -z "$(find "$root" -name '*rtnl*' ! -path '*/dpkg/*')" ]
}

# needs LIBC PYTHON DEB LINE: with these versions dpkg doesn't set the package up, and says why.
needs() { new_root "$1" "$2" && ! dpkg_in -i "$made/$3" && grep -qF "$4" "$folder/dpkg"; }

# flags_in_root: what pkg-config says of the library there.
flags_in_root() {
  env PKG_CONFIG_SYSROOT_DIR="$root" PKG_CONFIG_LIBDIR="$root/usr/$multiarch/pkgconfig" \
    PKG_CONFIG_ALLOW_SYSTEM_CFLAGS=1 PKG_CONFIG_ALLOW_SYSTEM_LIBS=1 pkg-config --cflags --libs rtnlc
}
builds_in_root() {
  # shellcheck disable=SC2046
  [ "$(flags_in_root | xargs)" = "-I$root/usr/include -L$root/usr/$multiarch -lrtnlc" ] &&
    cc -Wall -Wextra -Werror tests/package/finish.c $(flags_in_root) -o "$root/finish"
}

# The archive in a folder of the root, and what pkg-config says of it, wherever that is.
unpacked=$root/$archive
unpacks() { tar -C "$root" -xzf "$made/$archive.tar.gz"; }
flags_unpacked() { PKG_CONFIG_PATH=$unpacked/lib/pkgconfig pkg-config "$@" rtnlc; }
builds_unpacked() {
  # shellcheck disable=SC2046
  cc -Wall -Wextra -Werror tests/package/finish.c $(flags_unpacked --cflags --libs) \
    -o "$folder/shared" &&
    cc tests/package/finish.c $(flags_unpacked --cflags) \
      "$(flags_unpacked --variable=libdir)/librtnlc.a" -o "$folder/static"
}

python=$(python3 -c 'import platform; print(platform.python_version())')
standard=$(python3 -c 'import os, sysconfig; print(os.path.basename(sysconfig.get_path("stdlib")))')
libc=$(dpkg-query -W -f '${Version}' libc6:amd64 2>/dev/null)
if [ "$(id -u)" != 0 ] || ! chroot / true 2>/dev/null; then
  echo 'skipped: packages in a root of their own, since this is not root'
elif [ -z "$libc" ]; then
  echo 'skipped: packages in a root of their own, since the C library is not of Debian'
else
  new_root "$libc" "$python" || exit 1
  check 'there are no tools in the root' has_no_tools
  check 'the packages are installed' installs
  check 'dpkg has nothing to say of them' eval '[ -z "$(dpkg --root="$root" --audit)" ]'
  check 'the program there' shows in_root /usr/bin/rtnl show
  add_python || exit 1
  check 'the recorder there' records
  check 'the version there' [ "$(in_root /usr/bin/rtnl --version)" = "rtnl $version" ]
  if [ "$has_library" = yes ] && has cc 'a program in C' && has pkg-config 'a program in C'; then
    check 'a program in C is built by pkg-config' builds_in_root
    check 'it runs there' shows in_root /finish
  fi
  check 'the archive is unpacked' unpacks
  check 'the program of the archive there' shows in_root "/$archive/bin/rtnl" show
  if [ "$has_library" = yes ] && has cc 'a program in C' && has pkg-config 'a program in C'; then
    check 'a program in C is built over the archive' builds_unpacked
    check 'it runs with the shared library' \
      shows env "LD_LIBRARY_PATH=$unpacked/lib" "$folder/shared"
    check 'it runs with the static library' shows "$folder/static"
    rm "$root/finish"
  fi
  rm -r "$unpacked"
  check 'the packages are removed' removes
  glibc=$(needed "$folder/usr/usr/bin/rtnl")
  check 'an older C library' needs "${glibc%.*}.$((${glibc##*.} - 1))" 3.8 "${debs[0]}" \
    "depends on libc6 (>= $glibc)"
  check 'the same C library' eval 'new_root "$glibc" 3.8 && dpkg_in -i "$made/${debs[0]}"'
  check 'an older Python' needs "$glibc" 3.7.9 "${debs[0]}" 'depends on python3:any (>= 3.8)'
  if [ "$has_library" = yes ]; then
    check 'the development package alone' needs "$glibc" 3.8 "${debs[2]}" \
      "depends on librtnlc0 (= $version)"
  fi
fi

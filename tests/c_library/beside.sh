# The library beside libmnl, libnl and iproute2's libnetlink: in one program, in either order, and
# by names alone.

tests/helpers/install_packages.sh /usr/include/libmnl/libmnl.h libmnl-dev \
  /usr/include/libnl3/netlink/route/link.h libnl-route-3-dev
libnl=(-isystem /usr/include/libnl3)

# lies_in NAME: the first file of this name in a folder of libraries.
lies_in() {
  local place
  for place in $(cc -print-search-dirs | sed -n 's/^libraries: =//p' | tr ':' ' '); do
    [ ! -e "$place/$1" ] || { echo "$place/$1" && return; }
  done
  return 1
}

# together NAME COMMAND..: beside.c by this compiler and with these words, which runs.
together() {
  "${@:2}" -Iinclude -O1 -Wall -Wextra -Werror -o "$folder/$1" &&
    [ "$(LD_LIBRARY_PATH=$folder/library "$folder/$1")" = 'beside one another' ]
}

# theirs: the names that the libraries beside it define.
theirs() {
  local name found
  for name in libmnl.so.0 libnl-3.so.200 libnl-route-3.so.200 libnetlink.a; do
    found=$(lies_in "$name") || continue
    case $name in *.a) nm -g --defined-only "$found" ;; *) nm -D --defined-only "$found" ;; esac
  done 2>/dev/null | awk 'NF == 3 && $2 != "A" { sub(/@.*/, "", $3); print $3 }' | sort -u
}

# own_names: those of the library, without the one of its version.
own_names() {
  { nm -g --defined-only "$archive" && nm -D --defined-only "$shared"; } |
    awk 'NF == 3 && $2 != "A" { sub(/@.*/, "", $3); print $3 }' | sort -u
}

# has_no_name_of_theirs: and theirs are all there, by one name of each.
has_no_name_of_theirs() {
  theirs >"$folder/theirs" && own_names >"$folder/own" &&
    [ "$(grep -cxE 'mnl_cb_run|nl_recvmsgs|rtnl_link_get' "$folder/theirs")" = 3 ] &&
    [ -s "$folder/own" ] && [ -z "$(comm -12 "$folder/theirs" "$folder/own")" ]
}
begins_so() {
  own_names >"$folder/own" && [ -s "$folder/own" ] && ! grep -v '^rtnlc_' "$folder/own"
}

# ip_is_the_same: ip, which has libmnl and libnetlink in it, prints the same with it loaded.
ip_is_the_same() {
  local words='link show lo'
  # shellcheck disable=SC2086
  [ "$(ip $words)" = "$(LD_PRELOAD=$shared ip $words)" ] && [ -n "$(ip $words)" ]
}

check 'each name begins with rtnlc_' begins_so
if [ -e /usr/include/libmnl/libmnl.h ] && [ -e /usr/include/libnl3/netlink/route/link.h ]; then
  check 'no name of libmnl and libnl' has_no_name_of_theirs
  dynamic=(-lnl-route-3 -lnl-3 -lmnl)
  static=('-Wl,-Bstatic' -lnl-route-3 -lnl-3 '-Wl,-Bdynamic' -lmnl -pthread)
  ! lies_in libmnl.a >/dev/null ||
    static=('-Wl,-Bstatic' -lnl-route-3 -lnl-3 -lmnl '-Wl,-Bdynamic' -pthread)
  for order in OURS_FIRST THEIRS_FIRST; do
    program_in_c=("${libnl[@]}" -D "$order" tests/c_library/beside.c)
    check "beside.c, $order" \
      together beside cc "${program_in_c[@]}" "-L$folder/library" -lrtnlc "${dynamic[@]}"
    check "beside.c, $order, ours last" \
      together beside cc "${program_in_c[@]}" "${dynamic[@]}" "-L$folder/library" -lrtnlc
    check "beside.c, $order, static" \
      together beside cc "${program_in_c[@]}" "$archive" "${static[@]}"
    check "beside.c, $order, static, ours last" \
      together beside cc "${program_in_c[@]}" "${static[@]}" "$archive"
    check "beside.c, $order, C++" \
      together beside c++ -x c++ "${program_in_c[@]}" -x none "$archive" "${dynamic[@]}"
  done
else
  echo 'skipped: the library beside libmnl and libnl, since their headers are not here'
fi
if [ -e /usr/include/libnetlink.h ] && lies_in libnetlink.a >/dev/null; then
  for order in OURS_FIRST THEIRS_FIRST; do
    program_in_c=(-D LIBNETLINK -D "$order" tests/c_library/beside.c)
    check "beside libnetlink, $order" together beside cc "${program_in_c[@]}" "-L$folder/library" \
      -lrtnlc -lnetlink -lmnl
    check "beside libnetlink, $order, static" \
      together beside cc "${program_in_c[@]}" "$archive" -lnetlink -lmnl
  done
else
  echo 'skipped: the library beside libnetlink, since no package of its header is here'
fi
if has ip 'ip with the library loaded'; then
  check 'ip with the library loaded' ip_is_the_same
fi

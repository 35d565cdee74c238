# What runs in a network namespace of its own.

# in_namespace COMMAND..: the command, in such a namespace.
in_namespace() { unshare -n "$@" 2>/dev/null || unshare -rn "$@" 2>/dev/null; }

# names_links COMMAND..: there the command prints a line for each link, in order, that begins with
# its name, and ends well. Where the kernel makes no further link, the loopback is the only one.
names_links() {
  # shellcheck disable=SC2016
  in_namespace sh -c '
    ip link add name one type veth peer name other
    "$@" >"$0" && [ -s "$0" ] && cut -d " " -f 1 "$0" >"$0.names" &&
      ip -o link show | sed -E "s/^[0-9]+: ([^:@]+).*/\1/" | diff - "$0.names"' \
    "$folder/links_there" "$@"
}

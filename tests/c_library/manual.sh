# The manual page of the library, as installed.sh has installed it: against the header, its form,
# and its example.

installed_page=$prefix/$page

# lint_is_silent FILE: mandoc has no word on this page, but that another one is not here.
lint_is_silent() {
  mandoc -T lint "$1" >"$folder/lint" 2>/dev/null
  ! grep -v ': referenced manual not found: ' "$folder/lint"
}

# groff_is_silent FILE: no warning of groff, which man(1) asks.
groff_is_silent() { [ -z "$(groff -mandoc -Tutf8 -ww "$1" 2>&1 >/dev/null)" ]; }

# refuses CHANGE COMMAND..: the command fails on the page once sed has changed it so.
refuses() {
  sed "$1" "$installed_page" >"$folder/page.3" && ! cmp -s "$installed_page" "$folder/page.3" &&
    ! "${@:2}" "$folder/page.3" >/dev/null
}

# runs_example: the example is a whole function, which prints the links of this machine.
runs_example() {
  tests/c_library/manual.py --example "$installed_page" >"$folder/example.c" &&
    cat >>"$folder/example.c" <<'TEXT' &&
#include <unistd.h>
int main(void)
{
	struct sockaddr_nl own = { .nl_family = AF_NETLINK };
	socklen_t size = sizeof own;
	int fd = socket(AF_NETLINK, SOCK_RAW, NETLINK_ROUTE);
	if (fd < 0 || bind(fd, (struct sockaddr *)&own, size) != 0 ||
	    getsockname(fd, (struct sockaddr *)&own, &size) != 0)
		return 3;
	return print_links(fd, own.nl_pid, 1) ? 1 : close(fd);
}
TEXT
    cc -std=c99 -O2 -Wall -Wextra -pedantic -Werror "-I$prefix/include" "$folder/example.c" \
      "$prefix/lib/librtnlc.a" -o "$folder/example" || return 1
  "$folder/example" >"$folder/output"
  case $? in
    0) diff <(cd /sys/class/net && printf '%s\n' */ | tr -d / | sort) <(sort "$folder/output") ;;
    3) echo 'skipped: the example of rtnlc(3), since the machine opens no socket' ;;
    *) false ;;
  esac
}

check 'rtnlc(3) and the header' tests/c_library/manual.py "$installed_page"
check 'another type is found' refuses 's/^\.Fa "uint16_t number"/.Fa "uint32_t number"/' \
  tests/c_library/manual.py
check 'a call that is missing is found' refuses '/^\.Fn rtnlc_version/d' tests/c_library/manual.py
check 'a field that is missing is found' refuses '/^    uint32_t entries;/d' \
  tests/c_library/manual.py
check 'another word on a code is found' refuses 's/^An allocation was refused/An allocation failed/' \
  tests/c_library/manual.py
check 'the example of rtnlc(3)' runs_example
if has mandoc 'the form of rtnlc(3)'; then
  check 'the form of rtnlc(3)' lint_is_silent "$installed_page"
  check 'the form of rtnlc(3) in the sources' lint_is_silent "$page"
  check 'a section in another place is found' refuses 's/^\.Sh FILES/.Sh CAVEATS/' lint_is_silent
fi
if has groff 'rtnlc(3) by groff'; then
  check 'rtnlc(3) by groff' groff_is_silent "$installed_page"
fi

#!/usr/bin/env bash
# What a user meets first: each command that README.md, the tutorial and the manual page show with what it prints, recordings
# of other programs, the installation with its page and completions, and the launcher, which is tried over a kit
# that builds nothing. Expected texts are those of the pages or worked by hand. Packages that are missing are
# installed where that can be, and what can't run says so and isn't counted. All runs in a network namespace
# where the machine allows one. The last line is 'N passed, M failed', and the status is 1 where a case failed.
set -u
cd "$(dirname "${BASH_SOURCE[0]}")/.." || exit 1

# All is over a proved program, but where tests/run --quick names the one that ./rtnl runs.
unset RTNL_PATH RTNL_BUILD DESTDIR libdir
[ -n "${RTNL_PROGRAM-}" ] || export RTNL_PROVE=1
tests/helpers/proved.py >/dev/null || exit 1

if [ "${1-}" != inside ]; then
  tests/helpers/install_packages.sh mandoc mandoc pkg-config pkg-config xxd xxd jq jq strace strace tshark tshark ip iproute2 \
    /usr/share/bash-completion/bash_completion bash-completion zsh zsh fish fish
  # The first run builds the program where it isn't built from these sources.
  ./rtnl --version >/dev/null || exit 1
  for way in -n -rn; do
    unshare "$way" ip link set lo up 2>/dev/null && exec unshare "$way" tests/getting_started.sh inside
  done
fi

top=$PWD
. tests/helpers/cases.sh

# A folder of a user, with links to the launcher, to the installation and to what that installs.
user=$folder/user
mkdir "$user" && cp -r examples "$user" && ln -s "$top"/{rtnl,rtnl-record,install,share} "$user" || exit 1

# What standard error has beside --version, and behind an installation.
if tests/helpers/proved.py "$(RTNL_PATH=1 ./rtnl)"; then
  version_note='rtnl: this program is proved on this machine'
  install_note=''
else
  version_note='rtnl: this program is not proved on this machine'
  install_note='install: the program is not proved on this machine; --proved proves it first'
fi

# has_namespace WHAT: this runs in a network namespace with the loopback link up, or a line says that it does not.
has_namespace() {
  [ "$inside" = yes ] || ! echo "skipped: $1, since no network namespace can be made here"
}

# can_trace WHAT: strace is here and may trace, or a line says that it does not.
can_trace() {
  strace -o /dev/null true 2>/dev/null || ! echo "skipped: $1, since strace is not here or may not trace"
}
inside=no
[ "${1-}" = inside ] && ip link set lo up && inside=yes

. tests/getting_started/blocks.sh
. tests/getting_started/commands.sh
. tests/getting_started/pages.sh
. tests/getting_started/elsewhere.sh
. tests/getting_started/installation.sh
. tests/getting_started/manual.sh
. tests/getting_started/module.sh
. tests/getting_started/recorder.sh
. tests/getting_started/completions.sh
. tests/getting_started/kit.sh
. tests/getting_started/launcher.sh
. tests/getting_started/unproved.sh
. tests/getting_started/ended.sh
. tests/getting_started/library.sh
. tests/getting_started/installed.sh
. tests/getting_started/prepared.sh
. tests/getting_started/records.sh
. tests/getting_started/together.sh
. tests/getting_started/refusals.sh

finish

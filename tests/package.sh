#!/usr/bin/env bash
# The packages that ./package makes of what is built here: what stands in them, that a commit gives
# the same bytes twice, what they need of the C library, what lintian says of them, and what is
# refused. They are installed into a root that has the C library and nothing else, as root, where
# the program runs, a program in C, and with Python rtnl-record; and NOTICE is compared with the
# kit. The library and the page are built where they are missing, as tests/c_library.sh and
# tests/page.sh have them, under tests/run --quick without a proof. Packages that are missing are
# installed where that can be, and what can't run says so and isn't counted. The last line is 'N
# passed, M failed', and the status is 1 where a case failed.
set -u
cd "$(dirname "${BASH_SOURCE[0]}")/.." || exit 1
top=$PWD
unset DESTDIR libdir SOURCE_DATE_EPOCH RTNL_PROVE RTNL_BUILD RTNL_PATH
program=$(tests/helpers/proved.py) || exit 1
. tests/helpers/cases.sh

tests/helpers/install_packages.sh cc gcc objcopy binutils pkg-config pkg-config dpkg-deb dpkg \
  dpkg-shlibdeps dpkg-dev lintian lintian git git wasm-opt binaryen

# What is made here, and how ./package is told of it.
how=()
said_of_program='program proved where it was built'
tests/helpers/proved.py "$program" ||
  how+=(--unproved) said_of_program='program NOT PROVED where it was built'
has_library=yes said_of_library='library proved where it was built'
makes_library "$folder/library" || exit 1
tests/helpers/proved.py "$folder/library/librtnlc.a" ||
  how+=(--unproved) said_of_library='library NOT PROVED where it was built'
packaging/page.py >/dev/null || ! has wasm-opt 'the page' || web/build.py || exit 1
# ./package goes by what is built, not by what is wanted here.
unset RTNL_PROVE
if ! packaging/page.py >/dev/null; then
  has_library=no how+=(--without-library)
  echo 'skipped: what has the library, since the page is not built here'
fi
version=$(sed -n 's/^## //p' CHANGELOG.md | head -n 1)
archive=rtnl-$version-x86_64-linux
debs=("rtnl_${version}_amd64.deb")
[ "$has_library" = no ] ||
  debs+=("librtnlc0_${version}_amd64.deb" "librtnlc-dev_${version}_amd64.deb")
made=$folder/made

. tests/package/notice.sh
if has dpkg-deb 'all packages' && has git 'all packages'; then
  . tests/package/contents.sh
  . tests/package/twice.sh
  . tests/package/refused.sh
  . tests/package/roots.sh
fi

finish

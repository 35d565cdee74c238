#!/usr/bin/env bash
# install_packages.sh FILE PACKAGE ..: installs each package whose command, or file, is not here,
# where the user is root and there is apt-get; else it says what is missing.
set -u
missing=()
while [ "$#" -ge 2 ]; do
  command -v "$1" >/dev/null || [ -e "$1" ] || missing+=("$2")
  shift 2
done
[ "${#missing[@]}" -gt 0 ] || exit 0

if [ "$(id -u)" != 0 ] || ! command -v apt-get >/dev/null; then
  echo "not here, and not installed: ${missing[*]}"
  exit 0
fi
# Scripts that run side by side take turns: apt-get fails where another one runs.
exec 9<"${BASH_SOURCE[0]}" && flock 9
echo "installing: ${missing[*]}"
export DEBIAN_FRONTEND=noninteractive
install=(timeout 300 apt-get install -y --no-install-recommends "${missing[@]}")
{
  "${install[@]}" || { timeout 300 apt-get update && "${install[@]}"; }
} </dev/null >/dev/null 2>&1 || echo 'some of them could not be installed'
exit 0

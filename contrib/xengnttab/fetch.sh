#!/usr/bin/env bash
# Fetches the foreign sources that the tests compile unmodified, from the source package of Xen in Debian: libxenvchan's
# init.c, io.c and vchan.h, into DIR. They have a licence of their own (LGPL 2.1), so they are not kept here.
#
# usage: contrib/xengnttab/fetch.sh DIR
#
# It needs a Debian with apt-get, and uses lists of its own below DIR: nothing of the system is changed.
set -euo pipefail
dir="${1:?usage: fetch.sh DIR}"
mkdir -p "$dir/apt/lists/partial"
dir="$(cd "$dir" && pwd)"
if [ -s "$dir/init.c" ] && [ -s "$dir/io.c" ]; then exit 0; fi
# Where the system has its packages of this release from, its sources are too.
source="$(apt-get indextargets --format 'deb-src $(REPO_URI) $(CODENAME) $(COMPONENT)' |
  grep -E '/debian/? [a-z]+ main$' | head -n 1)"
[ -n "$source" ] || { echo "fetch.sh: apt has no lists of packages: run apt-get update" >&2; exit 1; }
printf '%s\n' "$source" >"$dir/apt/sources.list"
apt=(-qq -o Dir::Etc::sourceparts=- -o "Dir::Etc::sourcelist=$dir/apt/sources.list")
apt+=(-o "Dir::State::lists=$dir/apt/lists")
apt-get "${apt[@]}" update
(cd "$dir/apt" && apt-get "${apt[@]}" source --download-only xen)
tar -C "$dir/apt" -xf "$dir"/apt/xen_*.orig.tar.* --wildcards '*/tools/libs/vchan/*'
cp "$dir"/apt/xen-*/tools/libs/vchan/{init.c,io.c,vchan.h} "$dir"
rm -rf "$dir/apt"

#!/usr/bin/env bash
# Makes the archive of a release from a proved tree, and tries it in an empty folder: the program, the library for C
# with its headers, the man page, the completions, the examples, the pages, a checksum of each file, what the gate said
# last, and the kit. Between two versions the archive's name has the commit too.
# usage: tools/release.sh GATE_LOG [DIR]    GATE_LOG is what .ci/run printed for this very commit; DIR is `.` by default
set -euo pipefail
log=$(realpath "${1:?tools/release.sh GATE_LOG [DIR]}")
dir=$(mkdir -p "${2:-.}" && cd "${2:-.}" && pwd)
cd "$(dirname "${BASH_SOURCE[0]}")/.."
fail() { echo "release: $1" >&2; exit 1; }

# What the gate said: its last line, and that of how many proofs it made itself.
gate=$(tail -n 1 "$log")
[[ $gate =~ ^[0-9]+\ passed,\ 0\ failed$ ]] || fail "the gate did not pass: $gate"
grep -q '^| all |' "$log" || fail "$log is not what .ci/run printed"
made=$(sed -n 's/^rt: \(ok; .*\)/\1/p' "$log" | tail -n 1)
[ -z "$(git status --porcelain)" ] || fail "the tree has changes that are not committed"
python3 tools/header.py >/dev/null # the version is the same wherever it stands
version=$(sed -n 's/^const VERSION: &str = "//p' crates/gt_command_line/src/line.rt)
name="gthost-$version"
# the first heading with entries: that of the version, unless something has changed since
heading=$(awk '/^## / { head = $2 } /^- / { print head; exit }' CHANGELOG.md)
if [ "$heading" != "[$version]" ]; then name+="+$(git rev-parse --short=12 HEAD)"; fi
name+="-x86_64"
room=$(mktemp -d)
trap 'rm -rf "$room"' EXIT

./gthost install "$room/$name"
./gthost library "$room/$name/lib"
cp -r examples/. "$room/$name/share/gthost/examples"
pages="$room/$name/share/doc/gthost"
mkdir -p "$pages/docs"
cp README.md CHANGELOG.md "$pages"
cp docs/*.md "$pages/docs"
{
  echo "commit $(git rev-parse HEAD)"
  echo "gate   $gate"
  echo "       $made"
  echo "kit    $(rt version)"
  echo "check  share/doc/gthost/docs/VERIFY.md"
} >"$room/$name/PROVED"
(cd "$room/$name" && find . -type f ! -name SHA256SUMS -print0 | LC_ALL=C sort -z | xargs -0 sha256sum >SHA256SUMS)
LC_ALL=C tar -C "$room" --sort=name --owner=0 --group=0 --numeric-owner --mode=go-w \
  --mtime="@$(git log -1 --format=%ct)" -c "$name" | gzip -n >"$dir/$name.tar.gz"
(cd "$dir" && sha256sum "$name.tar.gz" >"$name.tar.gz.sha256")

# the archive, in an empty folder
awk '/^\$ / { on = $0 == "$ gthost play first.gt"; next } /^status / { on = 0 } on' \
  crates/cases_program/stdout >"$room/first"
empty="$room/empty"
mkdir "$empty"
cd "$empty"
tar -xzf "$dir/$name.tar.gz"
cd "$name"
sha256sum --check --quiet SHA256SUMS || fail "a file differs from its checksum"
bin/gthost --version >"$empty/said"
[ "$(head -n 1 "$empty/said")" = "gthost $version" ] || fail "the program has another version"
bin/gthost play share/gthost/examples/first.gt | cmp - "$room/first" || fail "the first example is played otherwise"
bin/gthost explore share/gthost/examples/revoke_race.gt | grep -q '^text 3 of 3$' || fail "the program does not explore"
for page in man/man1/gthost.1 bash-completion/completions/gthost zsh/site-functions/_gthost \
  fish/vendor_completions.d/gthost.fish doc/gthost/README.md; do
  [ -s "share/$page" ] || fail "there is no share/$page"
done
cat >"$empty/version.c" <<'C'
#include "gthost.h"
#include "gthost_renew.h"
int main(void) { return gthost_version() == GTHOST_VERSION ? 0 : 1; }
C
flags=(-Ilib -Llib -lgthost)
if command -v pkg-config >/dev/null; then
  read -ra flags <<<"$(PKG_CONFIG_PATH=lib pkg-config --cflags --libs gthost)"
  [ "$(PKG_CONFIG_PATH=lib pkg-config --modversion gthost)" = "$version" ] || fail "gthost.pc has another version"
fi
cc "$empty/version.c" "${flags[@]}" -o "$empty/version" || fail "a program in C does not link"
"$empty/version" || fail "the library has another version than its header"
echo "release: $dir/$name.tar.gz"

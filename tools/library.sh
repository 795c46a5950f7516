#!/usr/bin/env bash
# tools/library.sh DIR: leaves libgthost.a, gthost.h, gthost_types.h, gthost_renew.h and gthost.pc in DIR, for a program
# in C:
#   cc vmm.c $(PKG_CONFIG_PATH=DIR pkg-config --cflags --libs gthost)
set -euo pipefail
dir=${1:?tools/library.sh DIR}
mkdir -p "$dir"
dir=$(cd "$dir" && pwd)
cd "$(dirname "$0")/.."
kit=$(dirname "$(rt doc)")
(cd crates/gt_c && rt lib)
# one archive: the library, and the C allocator's functions that it calls
{
    echo "create $dir/libgthost.a"
    echo "addlib crates/gt_c/out/libgt_c.a"
    echo "addlib $kit/c/liblibc_c.a"
    echo save
    echo end
} | ar -M
ranlib "$dir/libgthost.a"
cp include/gthost.h include/gthost_types.h include/gthost_renew.h "$dir"
# the numbers of GTHOST_VERSION
hex=$(sed -n 's/^#define GTHOST_VERSION 0x//p' include/gthost.h)
version=$((16#$hex >> 16)).$((16#$hex >> 8 & 255)).$((16#$hex & 255))
# pkg-config --variable=commit gthost
commit=$(git describe --always --abbrev=12 --exclude='*' --dirty=-changed 2>/dev/null || true)
cat >"$dir/gthost.pc" <<PC
prefix=\${pcfiledir}
commit=$commit
Name: gthost
Description: grant tables of a hypervisor
Version: $version
Cflags: -I\${prefix}
Libs: -L\${prefix} -lgthost
PC
echo "$dir: libgthost.a gthost.h gthost_types.h gthost_renew.h gthost.pc"

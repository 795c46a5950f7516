#!/usr/bin/env bash
# Prints how many crates are proved at once: one on each processor, as far as there are 4 GB for each. By itself `rt ci`
# plans for more memory than a crate takes, and leaves processors idle.
set -euo pipefail
processors="$(nproc 2>/dev/null || echo 1)"
memory="$(awk '/^MemAvailable:/ { print int($2 / 4000000) }' /proc/meminfo 2>/dev/null || echo 1)"
if [ "${memory:-0}" -lt "$processors" ]; then processors="$memory"; fi
if [ "${processors:-0}" -ge 1 ]; then echo "$processors"; else echo 1; fi

#!/bin/sh
# Prints the number of crates to prove at the same time: one per processor, but at most four, with 3 GB of memory each.
set -eu

awk -v most="$(getconf _NPROCESSORS_ONLN 2>/dev/null || echo 1)" '
    /^MemAvailable:/ { room = int($2 / 3000000) }
    END {
        if (most > 4) most = 4
        if (most > room) most = room
        print most < 1 ? 1 : most
    }' /proc/meminfo

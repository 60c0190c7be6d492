#!/bin/sh
# Compiles packaging/jobd-wake.c into the folder that is named, by the system's C compiler: $CC, or cc. The kit's clang finds no stddef.h. Two runs
# over one tree give the same bytes. Where there is no compiler nothing is made; the launcher goes on without it, and exits are then seen within 0.1 s.
set -eu

into=$1
source=${0%/*}/jobd-wake.c
compiler=${CC:-cc}
rm -f "$into/jobd-wake"
if ! command -v "$compiler" >/dev/null 2>&1; then
    echo "$into/jobd-wake is not made: there is no C compiler ($compiler). jobd runs without it, and sees exits within 0.1 s."
    exit 0
fi
umask 022
if "$compiler" -std=c11 -O2 -Wall -Wextra -s -Wl,--build-id=none -o "$into/jobd-wake" "$source"; then
    exit 0
fi
rm -f "$into/jobd-wake"
echo "$into/jobd-wake is not made: $compiler refused it. jobd runs without it, and sees exits within 0.1 s."

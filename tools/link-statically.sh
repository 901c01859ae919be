#!/bin/sh
# tools/link-statically.sh [FILE]: links the proved program with a static C library, and writes it to FILE (out/ac_cli-static, if none is named). That
# program needs no library of the system that it runs on. It is made of out/ac_cli.o, which a build leaves beside the program (AC_CLI_BUILD=yes ./ac_cli).
# You need `rt`, `cc` and a static C library (package libc6-dev in Debian and Ubuntu, glibc-static in Fedora).
#
# out/ac_cli is made of the same object file. The linker and the C library are those of this system, and not the toolchain's.

set -eu
root=$(dirname -- "$(dirname -- "$(readlink -f -- "$0")")")
object=$root/out/ac_cli.o
if ! test -f "$object"; then
    echo "link-statically: there is no out/ac_cli.o; AC_CLI_BUILD=yes AC_CLI_ANEW=yes ./ac_cli builds it with the program" >&2
    exit 70
fi
kit=$(dirname -- "$(rt doc)")
cc -static -o "${1-$root/out/ac_cli-static}" "$object" "$kit/c/libos_c.a" "$kit/c/liblibc_c.a"

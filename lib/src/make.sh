#!/bin/sh
# Makes the static and the shared library of what is proved and of library.c.
#
#     lib/src/make.sh PROVED LEVEL FOLDER
#
# PROVED is the static library of the crate pageshare_c, built for x86-64-vLEVEL. FOLDER gets libpageshare.a and libpageshare.so.VERSION.
# The kit's calls of malloc, realloc and free are in both. CC, AR and OBJCOPY name other programs than cc, ar and objcopy.
set -eu

proved=$1 level=$2 folder=$3
here=$(cd "$(dirname "$0")" && pwd)
include=$here/../include
version=$(sed -n 's/^#define PAGESHARE_VERSION "\(.*\)"$/\1/p' "$include/pageshare.h")
memory=$(dirname "$(rt doc)")/c/liblibc_c.a
room=$(mktemp -d)
trap 'rm -rf "$room"' EXIT

mkdir -p "$folder"
"${OBJCOPY:-objcopy}" --redefine-syms="$here/doors.syms" "$proved" "$room/doors.a"
"${CC:-cc}" -std=c11 -O2 -fPIC -march=x86-64 -Wall -Wextra -Wconversion -Werror "-DPAGESHARE_BUILT_LEVEL=$level" -I"$include" \
    -c "$here/library.c" -o "$room/library.o"
printf 'create %s\naddlib %s\naddlib %s\naddmod %s\nsave\nend\n' "$room/whole.a" "$room/doors.a" "$memory" "$room/library.o" |
    "${AR:-ar}" -M
"${CC:-cc}" -shared -o "$room/shared" "-Wl,-soname,libpageshare.so.${version%%.*}" "-Wl,--version-script=$here/exports.map" \
    -Wl,--build-id=none -Wl,-z,defs,-z,relro,-z,now -Wl,--gc-sections -Wl,--whole-archive "$room/whole.a" -Wl,--no-whole-archive
"${OBJCOPY:-objcopy}" --strip-debug "$room/shared"
mv "$room/whole.a" "$folder/libpageshare.a"
mv "$room/shared" "$folder/libpageshare.so.$version"

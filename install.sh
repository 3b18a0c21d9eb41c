#!/bin/sh
# Installs libdbs.a, dbs.h and fidrosha-dbs.pc under PREFIX (default: /usr/local). DESTDIR, if given, is put before the
# paths that are written and not into fidrosha-dbs.pc. LIBDBS may name a library that is already built.
#   PREFIX="$HOME/.local" ./install.sh
set -eu
CDPATH= cd -- "$(dirname -- "$0")"
prefix=${PREFIX:-/usr/local}
case $prefix in
    /*) ;;
    *) echo "install.sh: PREFIX has to be an absolute path, not '$prefix'" >&2; exit 2 ;;
esac
to=${DESTDIR-}$prefix
library=$(host/library)
mkdir -p "$to/lib/pkgconfig" "$to/include"
cp "$library" "$to/lib/libdbs.a"
cp include/dbs.h "$to/include/dbs.h"
cat >"$to/lib/pkgconfig/fidrosha-dbs.pc" <<END
prefix=$prefix
libdir=\${prefix}/lib
includedir=\${prefix}/include

Name: fidrosha-dbs
Description: Colour halftone refiner (Direct Binary Search)
Version: 0.1.0
Libs: -L\${libdir} -ldbs
Cflags: -I\${includedir}
END
chmod 644 "$to/lib/libdbs.a" "$to/include/dbs.h" "$to/lib/pkgconfig/fidrosha-dbs.pc"
echo "installed under $to: lib/libdbs.a, include/dbs.h, lib/pkgconfig/fidrosha-dbs.pc"

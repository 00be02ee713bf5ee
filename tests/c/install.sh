#!/bin/sh
# Installs the engine into a folder of its own and builds a program against it as a stranger would: by
# pkg-config where that is at hand, in C and, where there is a compiler, in C++, with the archive and with
# the shared library. $1 is the repository.
set -eu
repo=$1
work=$(mktemp -d)
trap 'rm -rf "$work"' EXIT
make -s -C "$repo" install PREFIX="$work/usr" >/dev/null
compile="-I$work/usr/include -L$work/usr/lib -ldiphone_c"
if command -v pkg-config >/dev/null 2>&1; then
    compile=$(PKG_CONFIG_PATH=$work/usr/lib/pkgconfig pkg-config --cflags --libs diphone_c)
fi
build() {
    name=$1
    shift
    # The words of $compile are apart.
    # shellcheck disable=SC2086
    "$@" -o "$work/$name" "$repo/examples/hello.c" $compile
    "$work/$name" "$repo/examples/example.flv" "$repo/examples/example.sht" >"$work/out"
    printf '8 132 0 -8 -132\n' | cmp -s - "$work/out" || { echo "install: $name gives $(cat "$work/out")"; exit 1; }
}
build c cc -std=c11 -Wall -Wextra -Werror -pedantic -x c
if command -v c++ >/dev/null 2>&1; then
    build cpp c++ -std=c++17 -Wall -Wextra -Werror -pedantic -x c++
else
    echo "install: no C++ compiler is here"
fi
make -s -C "$repo" install-shared PREFIX="$work/usr" >/dev/null
LD_LIBRARY_PATH=$work/usr/lib
export LD_LIBRARY_PATH
build shared cc -std=c11 -Wall -Wextra -Werror -pedantic -x c
if ! readelf -d "$work/shared" 2>/dev/null | grep -q 'libdiphone_c.so.1'; then
    echo "install: the shared library is not used"
    exit 1
fi
"$work/usr/bin/diphone-player" --version >/dev/null
make -s -C "$repo" uninstall PREFIX="$work/usr"
left=$(find "$work/usr" -type f -o -type l)
[ -z "$left" ] || { echo "install: left over: $left"; exit 1; }
echo "install: passed"

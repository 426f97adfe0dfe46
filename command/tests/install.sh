#!/bin/sh
# Installs into a folder of its own, copies examples/installed outside the tree, and builds and runs it there in C, C++ and Rust against the
# installed files alone.
set -eu
root=$(CDPATH='' cd -- "$(dirname -- "$0")/../.." && pwd)
folder=$(mktemp -d)
trap 'rm -rf "$folder"' EXIT
prefix=$folder/prefix

make -s -C "$root" install PREFIX="$prefix"
found=$(cd "$prefix" && find . -type f | LC_ALL=C sort | tr '\n' ' ')
wanted='./bin/listing ./bin/skarnuth ./include/skarnuth.h ./lib/libskarnuth.a ./lib/pkgconfig/skarnuth.pc '
[ "$found" = "$wanted" ] || { echo "install.sh: installed $found" >&2; exit 1; }

cp "$root/examples/sources.table" "$root"/examples/installed/claim.* "$folder"
cd "$folder"
PATH=$prefix/bin:$PATH
PKG_CONFIG_PATH=$prefix/lib/pkgconfig
export PATH PKG_CONFIG_PATH
version=$(cat "$root/VERSION")
[ "$(skarnuth version)" = "skarnuth $version" ]
[ "$(pkg-config --modversion skarnuth)" = "$version" ]
skarnuth words sources.table > sources.words
listing < sources.words > listed
skarnuth list sources.table | cmp - listed

gcc -std=c99 -Wall -Wextra -Werror claim.c $(pkg-config --cflags --libs skarnuth) -o claim_c
g++ -std=c++17 -Wall -Wextra -Werror claim.cpp $(pkg-config --cflags --libs skarnuth) -o claim_cpp
rustc --edition 2021 -O claim.rs -L "$(pkg-config --variable=libdir skarnuth)" -o claim_rs
for program in claim_c claim_cpp claim_rs; do
    "./$program" < sources.words | diff claim.stdout - || { echo "install.sh: $program printed something else than claim.stdout" >&2; exit 1; }
done

# Staged, as packagers do: the files are below DESTDIR and speak of PREFIX alone.
make -s -C "$root" install DESTDIR="$folder/stage" PREFIX=/elsewhere/skarnuth
[ "$(sed -n 's/^prefix=//p' "$folder/stage/elsewhere/skarnuth/lib/pkgconfig/skarnuth.pc")" = /elsewhere/skarnuth ]
if make -s -C "$root" install PREFIX=here 2> said; then echo "install.sh: a folder that is not absolute is taken" >&2; exit 1; fi
grep -q '^make install: PREFIX is an absolute folder, not here$' said
echo "installed files: C, C++ and Rust build against them"

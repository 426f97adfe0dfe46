#!/bin/sh
# Tries bin/build on a small tree with stand-ins for rt and cargo: that it says where it is, builds once, and builds again where a source has changed.
set -eu
root=$(CDPATH='' cd -- "$(dirname -- "$0")/../.." && pwd)
folder=$(mktemp -d)
trap 'rm -rf "$folder"' EXIT
fail() { echo "build.sh: $*" >&2; exit 1; }

tree="$folder/a tree"
mkdir -p "$tree/bin" "$tree/tools" "$tree/command/src" "$tree/crates/one/src" "$tree/crates/two/must-fail" "$tree/crates/three" "$tree/crates/exports" "$tree/crates/listing"
cp "$root/bin/build" "$root/bin/skarnuth" "$root/bin/list" "$root/bin/words" "$tree/bin/"
printf '# crates\none:\ntwo: one\nthree:\nexports staticlib: two\nlisting: one\n' > "$tree/crates.txt"
for file in VERSION command/Cargo.toml command/build.rs command/src/main.rs crates/one/src/lib.rt crates/two/lib.rt crates/two/must-fail/x.edit crates/three/lib.rt crates/exports/lib.rt crates/listing/main.rt; do
    echo "$file" > "$tree/$file"
done
cat > "$tree/tools/rt" <<'RT'
#!/bin/sh
case $1 in
    version) echo kit ;;
    lib) [ ! -f ../../broken ] || { echo "error: not proved"; exit 1; }
        echo staticlib >> ../../calls; echo "crate one: modules loaded=1 checked=1"; echo "fn one::f: proved"; echo "crate two: modules loaded=1 checked=1"; echo "crate exports: modules loaded=1 checked=1"
        mkdir -p out; cat ../*/lib.rt ../one/src/* > out/libexports.a ;;
    run) echo listing >> ../../calls; echo "crate one: modules loaded=1 checked=1"; echo "crate listing: modules loaded=1 checked=1"; mkdir -p out; echo listing > out/listing ;;
esac
RT
cat > "$tree/tools/cargo" <<'CARGO'
#!/bin/sh
echo cargo >> ../calls
mkdir -p target/release
printf '#!/bin/sh\necho "ran $*"\nexit 1\n' > target/release/skarnuth
chmod +x target/release/skarnuth
CARGO
chmod +x "$tree/tools/rt" "$tree/tools/cargo"
PATH=$tree/tools:$PATH
cd "$tree"

# What it says the first time, and that it says nothing the second time.
bin/build 2> said || fail "does not build"
diff - said <<'SAID' || fail "says something else"
building: the proved library, which takes about 4 minutes the first time
building: crate 1 of 3 (one)
building: crate 2 of 3 (two)
building: crate 3 of 3 (exports)
building: the command skarnuth
SAID
bin/build 2> said
[ ! -s said ] || fail "builds again without a reason"

# calls WANTED: what was called since the last time.
calls() {
    found=$(tr '\n' ' ' < calls)
    [ "$found" = "$1" ] || fail "called $found, not $1($2)"
    : > calls
}
calls 'staticlib cargo ' 'the first time'
once() { bin/build "$@" 2> /dev/null || fail "does not build ($*)"; }
echo more >> crates/one/src/lib.rt; once; calls 'staticlib cargo ' 'a changed crate'
echo new > crates/two/new.rt; once; calls 'staticlib cargo ' 'a new file'
rm crates/two/new.rt; once; calls 'staticlib cargo ' 'a removed file'
mv crates/two/lib.rt crates/two/other.rt; once; calls 'staticlib cargo ' 'a renamed file'
touch -d '2001-01-01' crates/one/src/lib.rt; once; calls '' 'an older date alone'
echo more >> crates/three/lib.rt; once; calls '' 'a crate that it does not rest on'
echo more >> crates/two/must-fail/x.edit; once; calls '' 'a must-fail edit'
echo more >> command/src/main.rs; once; calls 'cargo ' 'the command alone'
echo 1 > VERSION; once; calls 'cargo ' 'the version'
rm -r crates/*/out; once; calls '' 'the toolchain folder removed'
rm command/target/release/skarnuth; once; calls 'cargo ' 'the program removed'
once all; calls 'listing ' 'the listing program'
once all; calls '' 'all again'
echo more >> crates/listing/main.rt; once all; calls 'listing ' 'the listing program changed'
once --again all; calls 'staticlib cargo listing ' 'again'

# A build that fails is no build, and the next one tries again.
touch broken; echo more >> crates/one/src/lib.rt
if bin/build 2> said; then fail "a failed build passes"; fi
grep -q 'error: not proved' said || fail "does not say why it failed"
if bin/list x > out 2> /dev/null; then fail "bin/list runs after a failed build"; fi
[ ! -s out ] || fail "bin/list answers with an old program"
rm broken; once; calls 'staticlib cargo ' 'after a failure'
if bin/build wrong 2> said; then fail "takes any word"; fi
grep -q '^usage: bin/build' said || fail "has no usage"

# Two at once: the second waits for the first, and finds nothing to do.
echo more >> crates/one/src/lib.rt
bin/build 2> /dev/null & first=$!
bin/build 2> /dev/null & second=$!
wait "$first" && wait "$second" || fail "two at once"
! command -v flock > /dev/null || calls 'staticlib cargo ' 'two at once'

# The commands hand over their words and the status, from any folder.
cd "$folder"
status=0; "$tree/bin/list" 'a b' > out || status=$?
[ "$status $(cat out)" = "1 ran list a b" ] || fail "bin/list: $status $(cat out)"
status=0; "$tree/bin/words" -d x > out || status=$?
[ "$status $(cat out)" = "1 ran words --decimal x" ] || fail "bin/words: $status $(cat out)"
for command in list words; do
    status=0; "$tree/bin/$command" 2> said || status=$?
    [ "$status" = 2 ] && grep -q "^usage: bin/$command" said || fail "bin/$command without a file: $status"
done
echo "bin/build: builds once, says where it is, and builds again where a source has changed"

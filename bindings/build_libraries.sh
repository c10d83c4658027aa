#!/usr/bin/env bash
# Proves and builds the library, and makes a static and a shared one of it.
#
# Use: build_libraries.sh [FOLDER]      FOLDER is bindings/lib without an argument
#
# FOLDER gets libsquawk.a and libsquawk.so.1, which define the calls of bindings/c/include/squawk.h,
# and the link libsquawk.so for linkers: a program that was linked with it looks for libsquawk.so.1.
# Both also hold the few lines of C by which a Rattle program calls malloc. Needs the Rattle kit
# (the command `rt`), a C compiler ($CC, which may have arguments, or else cc) and ar. The first
# call proves the crates below too, which takes minutes.
set -eu
here=$(CDPATH='' cd -P -- "$(dirname -- "${BASH_SOURCE[0]}")" && pwd)
out=${1:-$here/lib}
crate=$here/../crates/squawk_c
mkdir -p -- "$out"
out=$(CDPATH='' cd -- "$out" && pwd)
work=$(mktemp -d)
trap 'rm -rf "$work"' EXIT

if ! (cd "$crate" && rt lib) >"$out/build.log" 2>&1; then
  tail -n 20 "$out/build.log" >&2
  echo "build_libraries: squawk_c was not built; all messages are in $out/build.log" >&2
  exit 1
fi
# The folder of the kit is that of the page that `rt doc` names.
kit=$(dirname -- "$(rt doc)")

# One archive, so that callers need not know that there were two.
mkdir "$work/members"
(cd "$work/members" && ar x "$kit/c/liblibc_c.a")
cp -- "$crate/out/libsquawk_c.a" "$out/libsquawk.a"
chmod u+w -- "$out/libsquawk.a"
ar rs "$out/libsquawk.a" "$work"/members/*.o 2>/dev/null

# The shared library exports the calls alone.
echo '{ global: squawk_*; local: *; };' >"$work/exports"
read -ra cc <<<"${CC:-cc}"
"${cc[@]}" -shared -o "$out/libsquawk.so.1" -Wl,-soname,libsquawk.so.1 \
  -Wl,--version-script="$work/exports" -Wl,-z,defs -Wl,-z,relro,-z,now \
  -Wl,--whole-archive "$out/libsquawk.a" -Wl,--no-whole-archive
ln -sf libsquawk.so.1 "$out/libsquawk.so"

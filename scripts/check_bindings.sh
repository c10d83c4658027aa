#!/usr/bin/env bash
# Builds the library for C and what stands on it, runs their tests, and compares the report and the
# tokens that C, Rust and Python print with the report of the program, in all four readings.
#
# Use: check_bindings.sh [FILE ..]
#
# The texts are those of this repository (the stored input of the program, bench/ and the
# documents), a few that are made here, and the files named. What is not at hand (a sanitizer, C++,
# cargo, python3) is left out with a line. The compiler is $CC, which may have arguments, or else
# cc; without both nothing is done. The status is 0 if all agree, else 1.
#
# The library is compiled code without a sanitizer. So a sanitizer sees what report.c and test.c do
# with the calls, the memory that the library does not free, and what it passes to functions of C.
# That the library itself touches nothing outside texts and arrays is tested by test.c, in which
# they lie against pages that may not be touched.
set -u
named=()
for text in "$@"; do
  case $text in
    /*) named+=("$text") ;;
    *) named+=("$PWD/$text") ;;
  esac
done
CDPATH='' cd -- "$(dirname -- "${BASH_SOURCE[0]}")/.." || exit 1
read -ra cc <<<"${CC:-cc}"
include=bindings/c/include
failed=0
work=$(mktemp -d)
trap 'rm -rf "$work"' EXIT
export SQUAWK_LIB=$work/lib SQUAWK_LIBRARY=$work/lib/libsquawk.so
export CARGO_TARGET_DIR=$work/target PYTHONDONTWRITEBYTECODE=1

differs() {
  echo "check_bindings: $1"
  failed=1
}

# Whether a command is there; otherwise says what is left out.
has() {
  command -v "$1" >/dev/null && return
  echo "check_bindings: no $1, so $2 is left out"
  return 1
}

# The header of the kinds is made from the table, and the library has the calls of the header.
check_names() {
  if has python3 "the header of the kinds"; then
    python3 bindings/kinds_header.py | diff - $include/squawk_kinds.h >&2 ||
      differs "squawk_kinds.h is not what kinds_header.py prints"
  fi
  sed -nE 's/^(squawk_status|uint32_t) (squawk_[a-z_0-9]+)\(.*/\2/p' $include/squawk.h |
    sort >"$work/declared"
  nm -D --defined-only "$SQUAWK_LIBRARY" | awk '{ print $3 }' | sort >"$work/defined"
  diff "$work/declared" "$work/defined" >&2 ||
    differs "the library does not define the calls of squawk.h"
}

# Compiles a program in C into $work, with these flags: NAME SOURCE [FLAG ..]
compile_c() {
  local name=$1 source=$2
  shift 2
  "${cc[@]}" -std=c11 -Wall -Wextra -Wpedantic -Werror -I$include -o "$work/$name" \
    "bindings/c/$source" "$@" || differs "$source does not compile: $*"
}

# Runs a program that is to succeed.
succeeds() {
  "$@" >"$work/log" 2>&1 || {
    cat "$work/log"
    differs "${1##*/} fails"
  }
}

build_c() {
  local archive=$SQUAWK_LIB/libsquawk.a text=bench/statements.sql
  compile_c report_c report.c -O2 "$archive"
  compile_c test_c test.c -O2 "$archive"
  compile_c bench_c bench.c -O2 "$archive"
  succeeds "$work/test_c"
  succeeds "$work/bench_c" $text 1
  compile_c report_linked report.c -O2 -L"$SQUAWK_LIB" -lsquawk
  LD_LIBRARY_PATH=$SQUAWK_LIB "$work/report_linked" <$text >"$work/got" ||
    differs "report.c fails with the shared library"
  "$work/report_c" <$text | cmp - "$work/got" ||
    differs "report.c prints another report with the shared library"
  if "${cc[@]}" -fsanitize=address,undefined -o "$work/probe" "$work/probe.c" 2>/dev/null &&
    "$work/probe"; then
    local flags=(-g "-fsanitize=address,undefined" -fno-sanitize-recover)
    compile_c report_sanitized report.c "${flags[@]}" "$archive"
    compile_c test_sanitized test.c "${flags[@]}" "$archive"
    succeeds "$work/test_sanitized"
  else
    echo "check_bindings: ${cc[*]} has no sanitizer that runs here, so it is left out"
  fi
  if has c++ "the header in C++"; then
    printf '#include "squawk.h"\n#include "squawk_kinds.h"\n' |
      c++ -std=c++11 -Wall -Wextra -Wpedantic -Werror -fsyntax-only -I$include -x c++ - ||
      differs "the headers are not C++"
  fi
}

build_rust() {
  has cargo "the Rust crate" || return
  local manifest=bindings/rust/Cargo.toml
  cargo test -q --offline --locked --manifest-path $manifest >"$work/log" 2>&1 || {
    cat "$work/log"
    differs "the tests of the Rust crate fail"
  }
  if cargo build -q --release --offline --locked --manifest-path $manifest --example report; then
    cp "$work/target/release/examples/report" "$work/report_rust"
  else
    differs "the example in Rust does not compile"
  fi
}

build_python() {
  has python3 "the Python module" || return
  python3 -m unittest discover -q -s bindings/python >"$work/log" 2>&1 || {
    cat "$work/log"
    differs "the tests of the Python module fail"
  }
  # The executable itself, since what stands for it on the PATH may be slow to start.
  printf '#!/bin/sh\nexec "%s" "%s" "$@"\n' "$(python3 -c 'import sys; print(sys.executable)')" \
    "$PWD/bindings/python/report.py" >"$work/report_python"
  chmod +x "$work/report_python"
}

# Texts that no document is.
make_texts() {
  mkdir "$work/texts"
  : >"$work/texts/empty"
  printf '\357\273\277select 1;' >"$work/texts/byte_order_mark"
  printf 'select \303\251, \342\202\254, \360\237\230\200; \303' >"$work/texts/cut_off_character"
  printf 'a\0b;\377' >"$work/texts/bad_byte"
  printf "(;1e 0x 1_ \$1a 'open" >"$work/texts/open_string"
  printf "E'\\\\\\'' 'a\\\\' b' \$t\$;\$t\$ /* /* */" >"$work/texts/open_comment"
  head -c 20000 /dev/zero | tr '\0' ';' >"$work/texts/semicolons"
  head -c 20000 /dev/zero | tr '\0' '(' >"$work/texts/open_groups"
  head -c 20000 /dev/zero >"$work/texts/control_characters"
}

# Compares what all print for a text under a reading, and their statuses.
compare() {
  local text=$1 report language status
  shift
  if ! [ -f "$text" ] || ! [ -r "$text" ]; then
    differs "cannot read $text"
    return
  fi
  ./run "$@" <"$text" >"$work/expected" 2>"$work/log"
  report=$?
  case $report in
    0 | 4 | 5 | 6) ;;
    *)
      cat "$work/log"
      differs "the program: status $report: $text $*"
      return
      ;;
  esac
  sed -nE 's/^[0-9]+ T .* ([0-9]+\.\.[0-9]+)$/\1/p' "$work/expected" >"$work/leaves"
  rm -f "$work/tokens"
  for language in c sanitized rust python; do
    [ -x "$work/report_$language" ] || continue
    "$work/report_$language" "$@" <"$text" >"$work/got" 2>"$work/log"
    status=$?
    [ $status = $report ] || differs "$language: status $status in place of $report: $text $*"
    [ $report != 0 ] || cmp "$work/expected" "$work/got" ||
      differs "$language: another report: $text $*"
    # No token depends on the division, and cutting takes no memory.
    [ "${*: -1}" != --grouped ] || continue
    [ $report != 6 ] || continue
    "$work/report_$language" "$@" tokens <"$text" >"$work/got" 2>"$work/log"
    status=$?
    [ $status = $report ] ||
      differs "$language: status $status in place of $report for the tokens: $text $*"
    [ $report = 0 ] || continue
    awk '{ print $3 ".." $3 + $4 }' "$work/got" | cmp - "$work/leaves" ||
      differs "$language: the tokens are not the leaves: $text $*"
    [ -f "$work/tokens" ] || cp "$work/got" "$work/tokens"
    cmp "$work/got" "$work/tokens" || differs "$language: other tokens than in C: $text $*"
  done
}

if [ -z "${CC:-}" ] && ! command -v cc >/dev/null; then
  echo "check_bindings: no C compiler, so nothing is compared"
  exit 0
fi
echo 'int main(void) { return 0; }' >"$work/probe.c"
if ! "${cc[@]}" -o "$work/probe" "$work/probe.c"; then
  echo "check_bindings: the C compiler does not run: ${cc[*]}"
  exit 1
fi
bindings/build_libraries.sh "$work/lib" || exit 1
check_names
build_c
build_rust
build_python
make_texts
count=0
for text in crates/squawk_show/stdin bench/* README.md docs/*.md "$work"/texts/* "${named[@]}"; do
  count=$((count + 1))
  compare "$text"
  compare "$text" --backslash
  compare "$text" --grouped
  compare "$text" --backslash --grouped
done
[ $failed = 0 ] && echo "check_bindings: $count texts agree in four readings"
exit $failed

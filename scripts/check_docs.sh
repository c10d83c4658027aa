#!/usr/bin/env bash
# Compares the documents with the tree, and prints a line for each difference. The status is 0 without one, else 1.
#
# - README.md shows crates/squawk_example/src/main.rt and its output word for word.
# - Each file that README.md or a page of docs/ names in backquotes is there.
# - Each clause of `run` has its row in docs/RUN.md, and each row its clause.
# - `./run --help` lists the statuses of docs/PROGRAM.md with their error lines, and besides them its own status 1.
set -u
CDPATH='' cd -- "$(dirname -- "${BASH_SOURCE[0]}")/.." || exit 1
failed=0

differs() {
  echo "check_docs: $1"
  failed=1
}

# Prints the lines inside the code blocks of README.md whose opening line is exactly $1, from the heading $2 on.
blocks() {
  awk -v opening="$1" -v heading="$2" '
    $0 == heading { on = 1 }
    !on { next }
    inside && $0 == "```" { inside = 0; next }
    inside { if (wanted) print; next }
    /^```/ { inside = 1; wanted = $0 == opening }' README.md
}

example=crates/squawk_example
diff <(blocks '```rust' '## The library') "$example/src/main.rt" >&2 ||
  differs "README.md does not show $example/src/main.rt"
diff <(blocks '```' '## The library') "$example/stdout" >&2 || differs "README.md does not show $example/stdout"

files=$(find . -name out -prune -o -name .git -prune -o -type f -print)
for page in README.md docs/*.md; do
  for name in $(grep -oE '`[A-Za-z0-9_./-]+\.(rt|antt|md|sh|py|sql|txt)`' "$page" | tr -d '`' | sort -u); do
    grep -qE "/${name//./\\.}\$" <<<"$files" || differs "$page names $name, which is not there"
  done
done

rows=$(sed -n '/^## The clauses of `run`/,/^## Sources/p' docs/RUN.md |
  sed -nE 's/^\| `([a-z_0-9]+)` \|.*/\1/p' | sort)
clauses=$(sed -n '/^pub fn run</,/^{/p' crates/squawk_show/src/program.rt |
  sed -nE 's/^ *ensures ([a-z_0-9]+) .*/\1/p' | sort)
diff <(echo "$rows") <(echo "$clauses") >&2 || differs "docs/RUN.md does not list the clauses of run"

listed=$(sed -n '/^## Statuses/,/^## The report/p' docs/PROGRAM.md |
  awk -F ' *[|] *' '$2 ~ /^[0-9]+$/ { gsub(/`/, "", $3); print $2, $3 == "none" ? "" : $3 }')
printed=$(./run --help |
  awk '/^ *[0-9]+ / && $1 != 1 { line = substr($0, 10, 26); sub(/ +$/, "", line); print $1, line }')
diff <(echo "$listed") <(echo "$printed") >&2 || differs "./run --help does not list the statuses of docs/PROGRAM.md"

exit "$failed"

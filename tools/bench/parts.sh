# What run and count have in common; each reads it first. RAW_FILES_SRC as for tools/oracle.
set -euo pipefail
root=$(cd "$(dirname "$0")/../.." && pwd)
cd "$root"

# Stops where one of these programs is missing.
needs() {
  local program
  for program; do
    command -v "$program" >/dev/null || { echo "$0: $program is missing" >&2; exit 1; }
  done
}

# Builds the library and the bench program for release. Its functions start at multiples of 64 bytes: the same plain list, 32 bytes off
# by chance, took up to a quarter longer behind turns.
build() {
  bindings/build
  RUSTFLAGS="-C llvm-args=-align-all-functions=6" cargo build --release --offline -q --manifest-path tools/bench/Cargo.toml
}

machine() {
  echo "$(sed -n 's/^model name[^:]*: //p' /proc/cpuinfo | head -n 1), $(nproc) processors; $(rustc --version); $(rt version | head -n 1)"
}

# Prints a text and puts it into docs/BENCHMARK.md between two marks: put MARK END TEXT.
put() {
  printf '%s\n' "$3"
  awk -v mark="<!-- $1 -->" -v end="<!-- $2 -->" -v text="$3" '
    $0 == mark { print; print ""; print text; print ""; skip = 1; found++; next }
    $0 == end { skip = 0; found++ }
    !skip { print }
    END { exit found != 2 }' docs/BENCHMARK.md >docs/BENCHMARK.new ||
    { rm docs/BENCHMARK.new; echo "$0: docs/BENCHMARK.md does not have the marks '$1' and '$2', once each" >&2; exit 1; }
  mv docs/BENCHMARK.new docs/BENCHMARK.md
}

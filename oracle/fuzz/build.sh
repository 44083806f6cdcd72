#!/bin/sh
# build.sh FOLDER: from the modules that modules.sh kept in FOLDER, makes there
#   fuzz     libFuzzer with the library's own code instrumented: coverage and comparisons guide it, and each load and store of the library and of
#            the harness is checked (AddressSanitizer)
#   replay   the same harness with the release archives as they are, each slice against a page that cannot be touched
#   heap     the same with slices from the heap, for valgrind
set -eu
[ $# -eq 1 ] || { echo "build.sh FOLDER" >&2; exit 2; }
cd "$1"
folder=$(pwd)
cd - >/dev/null
cd "$(dirname "$0")"
kit_clang=$(cat "$folder/clang")
common="--target=x86_64-unknown-linux-gnu -march=x86-64 --no-default-config -fPIC -x ir"
for name in exports strip_export; do
    # The module's functions do not ask for address checks; here they do.
    # shellcheck disable=SC2086
    "$kit_clang" $common -S -emit-llvm "$folder/$name.bc" -o "$folder/$name.ll"
    sed -i 's/^\(attributes #[0-9]* = { \)\(nounwind "probe-stack"\)/\1sanitize_address \2/' "$folder/$name.ll"
    grep -q '^attributes .*sanitize_address' "$folder/$name.ll"
    # shellcheck disable=SC2086
    "$kit_clang" $common -c "$folder/$name.ll" -o "$folder/$name.o" -O2 -fsanitize=address \
        -fsanitize-coverage=inline-8bit-counters,pc-table,trace-cmp
done
sources="reading.c building.c finding.c reading_strips.c lend.c readers.c strips.c paths.c strip_reads.c harness.c"
objects=""
# The reference and the harness are address checked, but do not count as coverage.
for source in $sources; do
    clang -std=c11 -g -O2 -Wall -Wextra -ffp-contract=off -DHEAP -fsanitize=address -c "$source" -o "$folder/$source.o"
    objects="$objects $source.o"
done
# shellcheck disable=SC2086
(cd "$folder" && clang -fsanitize=fuzzer,address $objects exports.o strip_export.o -o fuzz)
archives=../../target/staticlib
for name in replay heap; do
    [ $name = heap ] && how=-DHEAP || how=
    # shellcheck disable=SC2086
    clang -std=c11 -gdwarf-4 -O2 -Wall -Wextra -ffp-contract=off $how $sources replay.c "$archives/libexports.a" "$archives/libstrip_export.a" \
        -o "$folder/$name"
done
echo "$folder: fuzz, replay, heap"

#!/usr/bin/env bash
# run.sh: compiles and runs all C tests against crates/station/out/libstation.a and crates/ask/out/ask, one line for each part. Status 0 if every part passed.
#
#     tests/run.sh
#
# NISHKAVEL_SEED sets the seed, NISHKAVEL_ROUNDS the rounds of compare, NISHKAVEL_ASKS the random inputs of ask, NISHKAVEL_XPATHS the comparisons with libxml2.
#
# The archive and ask are for x86-64. On x86-64 everything is plain gcc. On Arm what links the archive is cross-compiled, linked statically and run under
# qemu-x86_64, and so is ask run; what does not link it (the comparison with libxml2 and the program that asks ask) is compiled for the machine itself.
# libxml2 is therefore always the machine's own, and gets the archive's answers from a file.
#
# shellcheck disable=SC2317  # the functions below are called by `part`, which gets their names
set -uo pipefail
tests=$(cd "$(dirname "$0")" && pwd)
root=$(dirname "$tests")
cd "$root" || exit 1
archive=${NISHKAVEL_ARCHIVE:-crates/station/out/libstation.a}
ask=${NISHKAVEL_ASK:-crates/ask/out/ask}
out=target/tests
machine=${NISHKAVEL_MACHINE:-$(uname -m)}
seed=${NISHKAVEL_SEED:-7}
xpaths=${NISHKAVEL_XPATHS:-3000}
export NISHKAVEL_SEED=$seed
warnings=(-Wall -Wextra -Wconversion -Wsign-conversion -Wshadow -Werror)
flags=(-std=c99 -O2 "${warnings[@]}" -Wstrict-prototypes -Wmissing-prototypes -Iinclude)
failed=0
samples=(answers contained rewriting lists wrong_inputs)
mkdir -p "$out" || exit 1

# ---- what is needed ----

if [ "$machine" = x86_64 ]; then
  cross=gcc link=() runner=()
  export NISHKAVEL_ASKS=${NISHKAVEL_ASKS:-400}
else
  cross=x86_64-linux-gnu-gcc link=(-static) runner=(qemu-x86_64 -L /usr/x86_64-linux-gnu)
  export NISHKAVEL_ASKS=${NISHKAVEL_ASKS:-200}   # to start an emulated program takes long
fi
bash tools/install || exit 1
read -ra xml_cflags <<< "$(pkg-config --cflags libxml-2.0)"
read -ra xml_libs <<< "$(pkg-config --libs libxml-2.0)"

# The archive and ask are built where they are missing or older than what they are made from.
stale() { [ ! -f "$1" ] || { [ -d crates ] && [ -n "$(find crates -name out -prune -o -type f -newer "$1" -print -quit)" ]; }; }
build() {
  command -v rt > /dev/null || { echo "run: $1 has to be built, and the Rattle kit is not on this machine (no command rt)"; exit 2; }
  rm -f "$1"
  (cd "$2" && rt "$3") > "$out/build.log" 2>&1 < /dev/null || { cat "$out/build.log"; exit 1; }
  [ -f "$1" ] || { cat "$out/build.log"; echo "run: $1 was not built"; exit 1; }
}
[ -n "${NISHKAVEL_ARCHIVE:-}" ] || ! stale "$archive" || build "$archive" crates/station lib
[ -n "${NISHKAVEL_ASK:-}" ] || ! stale "$ask" || build "$ask" crates/ask run

# ---- parts ----

# part NAME COMMAND...: runs the command, to its first failure; its last line if it passed, all of its output if not.
part() {
  local name=$1 status begun=$SECONDS
  shift
  (set -e; "$@") > "$out/$name.log" 2>&1
  status=$?
  if [ "$status" -eq 0 ]; then
    printf 'run: %s passed in %d s: %s\n' "$name" $((SECONDS - begun)) "$(tail -n 1 "$out/$name.log")"
  else
    cut -c 1-4000 "$out/$name.log"
    printf 'run: %s FAILED with status %d\n' "$name" "$status"
    failed=1
  fi
}

# object COMPILER FOLDER NAME...: compiles these files.
object() {
  local compiler=$1 folder=$2 name
  shift 2
  mkdir -p "$folder"
  for name in "$@"; do "$compiler" "${flags[@]}" -c "tests/$name.c" -o "$folder/$name.o"; done
}

compile() {
  local own="$out/own" for_archive="$out/archive"
  object "$cross" "$for_archive" evaluator generate lending calls seven compare answer_packets
  "$cross" "${link[@]}" -o "$out/compare" "$for_archive"/{compare,seven,calls,lending,generate,evaluator}.o "$archive"
  "$cross" "${link[@]}" -o "$out/answer_packets" "$for_archive/answer_packets.o" "$archive"
  "$cross" "${flags[@]}" "${link[@]}" -o "$out/stack" tests/stack.c "$for_archive"/{generate,evaluator}.o "$archive"
  for sample in "${samples[@]}"; do "$cross" "${flags[@]}" "${link[@]}" -o "$out/sample_$sample" "samples/$sample.c" "$archive"; done
  if [ "$machine" = x86_64 ]; then own=$for_archive; else object gcc "$own" evaluator generate; fi
  gcc "${flags[@]}" -o "$out/ask_cases" tests/ask_cases.c "$own"/{generate,evaluator}.o
  gcc "${flags[@]}" "${xml_cflags[@]}" -o "$out/xpath" tests/xpath.c "$own"/{generate,evaluator}.o "${xml_libs[@]}"
  gcc "${flags[@]}" -pedantic -fsyntax-only -x c include/nishkavel.h
  g++ -std=c++11 "${warnings[@]}" -pedantic -fsyntax-only -x c++ include/nishkavel.h
  echo 'five programs, the samples, and the header alone as C99 and as C++, with no warning'
}

compare_sanitized() {
  gcc "${flags[@]}" -O1 -g -fsanitize=address,undefined -fno-sanitize-recover=all -o "$out/compare_sanitized" \
    tests/{compare,seven,calls,lending,generate,evaluator}.c "$archive"
  "$out/compare_sanitized" "$seed" 150
}

xpath() {
  "$out/xpath" write "$seed" "$xpaths" > "$out/cases"
  "${runner[@]}" "$out/answer_packets" < "$out/cases" > "$out/answers"
  "$out/xpath" check "$seed" "$xpaths" < "$out/answers"
}

# Each sample prints what its file `expected` says, and docs/USING.md quotes that file.
samples() {
  local sample line
  for sample in "${samples[@]}"; do
    "${runner[@]}" "$out/sample_$sample" > "$out/sample_$sample.out"
    diff "$out/sample_$sample.out" "samples/$sample.expected"
    while IFS= read -r line; do
      grep -qxF "    $line" docs/USING.md || { echo "docs/USING.md does not quote the line '$line' of samples/$sample.expected"; return 1; }
    done < "samples/$sample.expected"
  done
  echo "${#samples[@]} samples print what is expected"
}

# Lines of at most 160 columns; the layout of the C by clang-format, of version 14 since versions differ, and the scripts by shellcheck, each where it is here.
style() {
  local c=(include/*.h samples/*.c tests/*.[ch] bench/*.[ch]) scripts looked=()
  if LC_ALL=C.UTF-8 grep -rnIE '^.{161,}' crates include samples tests bench tools .ci --exclude='*.edit' --exclude-dir=out; then
    echo 'these lines are over 160 columns'
    return 1
  fi
  mapfile -t scripts < <(grep -lE '^#!.*sh$' .ci/* tests/*.sh bench/*.sh tools/*)
  if clang-format --version 2> /dev/null | grep -q 'version 14\.'; then
    clang-format --dry-run -Werror "${c[@]}"
    looked+=("${#c[@]} files of C by clang-format")
  else
    looked+=('no C, since clang-format 14 is not here')
  fi
  if command -v shellcheck > /dev/null; then
    shellcheck "${scripts[@]}"
    looked+=("${#scripts[@]} scripts by shellcheck")
  else
    looked+=('no scripts, since shellcheck is not here')
  fi
  echo "${looked[0]}; ${looked[1]}"
}

# Each rule of the evaluator broken in turn: compare has to find it, by a mismatch and not for want of anything else.
broken() {
  local k last found=0
  last=$(sed -n 's/^ \* *\([0-9][0-9]*\)  [a-z].*/\1/p; s/^\/\* *\([0-9][0-9]*\)  [a-z].*/\1/p' tests/evaluator.c | tail -n 1)
  for ((k = 1; k <= last; k++)); do
    "$cross" "${flags[@]}" -O0 "-DBREAK_EVALUATOR=$k" -c tests/evaluator.c -o "$out/archive/broken.o"
    "$cross" "${link[@]}" -o "$out/broken" "$out/archive"/{compare,seven,calls,lending,generate,broken}.o "$archive"
    if "${runner[@]}" "$out/broken" > "$out/broken.out" 2>&1; then echo "compare passed with rule $k broken"; return 1; fi
    grep -q 'compare: MISMATCH' "$out/broken.out" || { cat "$out/broken.out"; echo "compare failed with rule $k broken, but not by a mismatch"; return 1; }
    found=$((found + 1))
  done
  [ "$found" -ge 5 ] && echo "$found rules broken in turn, each found"
}

part compile compile
[ "$failed" -eq 0 ] || exit 1
part compare "${runner[@]}" "$out/compare"
compared=$failed
[ "$machine" != x86_64 ] || part sanitized compare_sanitized
part stack "${runner[@]}" "$out/stack"
part xpath xpath
part ask bash tests/ask.sh "${runner[@]}" "$ask"
part ask_cases "$out/ask_cases" "${runner[@]}" "$ask"
part samples samples
part style style
part names python3 tools/check-names
# A broken rule tells something only where the right ones agree with the library.
[ "$compared" -ne 0 ] || part broken broken
if [ "$failed" -eq 0 ]; then echo 'run: all parts passed'; else echo 'run: some parts FAILED'; fi
exit "$failed"

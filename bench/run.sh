#!/usr/bin/env bash
# The benchmarks, one command, one run, from the root of the repository:
#
#     bench/run.sh           prints the tables
#     bench/run.sh FILE      writes them to FILE
#
# SAMPLES=N sets the samples of each time (101).
#
# Both sides run on the processor at hand. On x86-64 the archive is that of `rt lib` in crates/station, and hand.c is compiled for the same plain x86-64. On
# Arm, where that archive does not link, the kit's clang compiles the same LLVM module once more for Arm.
set -euo pipefail
cd "$(dirname "$0")/.."
out=${1:-}
samples=${SAMPLES:-101}
machine=$(uname -m)

bash tools/install
command -v rt > /dev/null || { echo 'bench: the Rattle kit is not on this machine (no command rt), so that the archive cannot be built' >&2; exit 2; }

build=target/bench
mkdir -p "$build"

# The archive of another processor: rt is run over a copy of the kit, made of links, in which clang first puts aside the module that it is given.
other_archive() {
  local kit tools scratch clang
  kit=$(readlink -f "$(command -v rt)")
  kit=${kit%/bin/rt}
  tools=on/$machine/toolchain/bin
  clang=$kit/$tools/clang
  scratch=$(mktemp -d)
  cp -rs "$kit" "$scratch/kit"
  rm "$scratch/kit/$tools/clang"
  cat > "$scratch/kit/$tools/clang" << END
#!/bin/sh
for word in "\$@"; do
    case \$word in
    *.bc | *.ll) cp "\$word" '$scratch/module' ;;
    esac
done
exec '$clang' "\$@"
END
  chmod +x "$scratch/kit/$tools/clang"
  (cd crates/station && RATTLE_HOME=$scratch/kit rt lib >&2)
  if [ ! -s "$scratch/module" ]; then
    echo 'bench: the module of the archive was not seen' >&2
    exit 1
  fi
  "$clang" --target="$machine-unknown-linux-gnu" -O3 -fPIC -Wno-override-module -c -x ir "$scratch/module" -o "$build/station.o"
  rm -f "$build/libstation.a"
  ar rcs "$build/libstation.a" "$build/station.o"
  rm -rf "$scratch"
}

if [ "$machine" = x86_64 ]; then
  (cd crates/station && rt lib >&2)
  cp crates/station/out/libstation.a "$build/libstation.a"
else
  other_archive
fi

read -ra xml_cflags <<< "$(pkg-config --cflags libxml-2.0)"
read -ra xml_libs <<< "$(pkg-config --libs libxml-2.0)"
flags=(-std=gnu11 -O3 -Wall -Wextra -Wconversion -Wsign-conversion -Wshadow -Wstrict-prototypes -Wmissing-prototypes -Werror)
gcc "${flags[@]}" -c bench/hand.c -o "$build/hand.o"
gcc "${flags[@]}" "${xml_cflags[@]}" -Iinclude -Ibench -c bench/bench.c -o "$build/bench.o"
gcc "$build/bench.o" "$build/hand.o" "$build/libstation.a" "${xml_libs[@]}" -lm -o "$build/bench"

report() {
  local processor
  processor=$(LC_ALL=C lscpu | sed -n 's/^Model name: *//p' | head -n 1)
  echo '# Benchmarks'
  echo
  echo "Command: \`bench/run.sh docs/BENCHMARKS.md\`. Processor: ${processor:-unknown} ($machine)." \
    "Hand-written C: $(gcc --version | head -n 1), \`-O3\` without \`-march\`, so that both sides have the plain instruction set of $machine." \
    "libxml2 $(pkg-config --modversion libxml-2.0), each expression in the faster of its two spellings (\`//frame\` and \`/descendant::frame\`)." \
    "Each time is the median of $samples samples, fewer where libxml2 takes long; the sides of a row take turns."
  echo
  "$build/bench" "$samples"
  cat bench/explained.md
}

# Lines that are no row of a table, in 158 columns.
wrap() {
  awk 'length($0) <= 158 || /^\|/ { print; next }
    { n = split($0, word, " "); line = word[1]
      for (k = 2; k <= n; k++)
        if (length(line) + 1 + length(word[k]) > 158) { print line; line = "  " word[k] } else line = line " " word[k]
      print line }'
}

if [ -n "$out" ]; then
  report | wrap > "$build/report.md"
  cp "$build/report.md" "$out"
else
  report | wrap
fi

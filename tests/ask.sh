#!/usr/bin/env bash
# ask.sh COMMAND...: the program ask on inputs that are written down here, with the output that docs/RULES.md says. COMMAND is the program, with an emulator in
# front of it where one is needed.
set -u
shopt -s lastpipe   # the last part of a pipe counts here and not in a shell of its own
program=("$@")
cases=0
failed=0

ask() { "${program[@]}"; }

# bytes NUMBERS...: these bytes. One argument may hold several numbers.
bytes() {
  local numbers text
  read -ra numbers <<< "$*"
  printf -v text '\\x%02x' "${numbers[@]}"
  printf '%b' "$text"
}

# is NAME RIGHT: standard input has to be RIGHT and a newline. A final mark keeps the newlines at the end in the comparison.
is() {
  local got
  got=$(cat; printf x)
  cases=$((cases + 1))
  if [ "$got" != "$2"$'\n'x ]; then
    failed=$((failed + 1))
    printf 'ask.sh: MISMATCH, %s\n  right:\n%s\n  printed:\n%s\n' "$1" "$2" "${got%x}"
  fi
}

line='1 0 28  255 255 0 1  0 0 0 2  0 1 0 5  0 1 0 3  0 3 0 4  0 0 0 2  0 5 0 3'
view='1 0 9 1  255 1 0 2  0 1 0 3'
posed='1 0 13 1  255 1 0 2  0 1 0 3  1 0 0 4'
controlled='1 0 13 2  255 1 0 2  0 0 0 5  0 1 0 3'
strip='1 0 5 0  255 0 0 2'
strips='1 0 9 1  255 1 0 2  0 1 0 2'
seven=$'view 2: 3 6\nquery 1: 3\nrewriting 1: 3'

bytes "$line" "$view" "$posed" | ask | is 'flight line seven' "$seven"
bytes "$line" "$view" "$controlled" | ask | is 'a query that the view does not serve' $'view 2: 3 6\nquery 1: 3\nrewriting none'
bytes "$line" "$strip" "$strip" | ask | is 'no answers' $'view 0:\nquery 0:\nrewriting 0:'
bytes "$line" "$strips" "$strips" | ask | is 'the cut at the second strip' $'view 0:\nquery 0:\nrewriting 0:'
bytes "$line" "$view" "$view" | ask | is 'the view itself' $'view 2: 3 6\nquery 2: 3 6\nrewriting 2: 3 6'

# Pieces of a pipe: pauses inside the document, between packets and before the last byte.
{ bytes 1; sleep 0.05; bytes 0 28 255 255 0 1 0 0 0 2 0; sleep 0.05; bytes 1 0 5 0 1 0 3 0 3 0 4 0 0 0 2 0 5 0 3; sleep 0.05; bytes "$view"; sleep 0.05
  bytes 1 0 13 1 255 1 0 2 0 1 0 3 1 0 0; sleep 0.05; bytes 4; } | ask | is 'flight line seven in pieces' "$seven"

# Input that ends early, or late.
printf '' | ask | is 'no input' 'refused 2 document'
bytes 9 | ask | is 'one byte, of a wrong version' 'refused 2 document'
bytes 9 0 | ask | is 'two bytes, of a wrong version' 'refused 2 document'
bytes 9 0 28 | ask | is 'three bytes, of a wrong version' 'refused 1 document'
bytes 1 0 28 | ask | is 'a document without its nodes' 'refused 2 document'
bytes "$line" | ask | is 'no view' 'refused 2 view'
bytes "$line" 7 0 | ask | is 'two bytes of a view' 'refused 2 view'
bytes "$line" "$view" | ask | is 'no query' 'refused 2 query'
bytes "$line" "$view" 1 0 13 1 255 1 0 2 0 1 0 3 1 0 0 | ask | is 'a query without its last byte' 'refused 2 query'
bytes "$line" "$view" "$posed" 0 | ask | is 'a byte too many' 'refused 2 input'
bytes "$line" "$view" "$posed" "$posed" | ask | is 'a packet too many' 'refused 2 input'

# Damage: the first packet that is wrong decides.
bytes 2 0 28 255 255 0 1 | ask | is 'a document of version 2' 'refused 1 document'
bytes 1 0 29 255 255 0 1 "$view" "$posed" | ask | is 'a document of 29 bytes' 'refused 2 document'
bytes 1 0 0 "$view" "$posed" | ask | is 'a document without nodes' 'refused 2 document'
bytes 1 0 4 0 0 0 1 "$view" "$posed" | ask | is 'node 0 with a parent' 'refused 4 document'
bytes 1 0 4 255 255 0 0 "$view" "$posed" | ask | is 'a node without a label' 'refused 4 document'
bytes 1 0 8 255 255 0 1 0 1 0 1 "$view" "$posed" | ask | is 'a node that is its own parent' 'refused 4 document'
bytes 1 0 16 255 255 0 1 0 0 0 1 0 0 0 1 0 1 0 1 "$view" "$posed" | ask | is 'a node that is out of order' 'refused 4 document'
bytes "$line" 0 0 9 1 255 1 0 2 0 1 0 3 "$posed" | ask | is 'a view of version 0' 'refused 1 view'
bytes "$line" 1 0 1 0 "$posed" | ask | is 'a view without steps' 'refused 2 view'
bytes "$line" 1 0 9 2 255 1 0 2 0 1 0 3 "$posed" | ask | is 'an output step that is not there' 'refused 3 view'
bytes "$line" 1 0 9 1 255 2 0 2 0 1 0 3 "$posed" | ask | is 'an axis of 2' 'refused 3 view'
bytes "$line" "$view" 1 0 5 0 254 1 0 2 | ask | is 'step 0 with a parent' 'refused 3 query'
bytes "$line" "$view" 1 0 5 0 255 1 0 0 | ask | is 'a step without a label' 'refused 3 query'
bytes "$line" "$view" 1 0 5 0 255 1 0 0 1 2 3 | ask | is 'a wrong query with bytes behind it' 'refused 3 query'

# The largest sizes. A flat document of 2,048 nodes, and a pattern of some steps whose answers are all nodes but the first.
flat() {
  bytes 1 32 0  255 255 0 1
  local k
  for ((k = 1; k < 2048; k++)); do printf '\000\000\000\002'; done
}
star() {
  bytes 1 $(((1 + 4 * $1) / 256)) $(((1 + 4 * $1) % 256)) $(($1 - 1))  255 0 0 1
  local k
  for ((k = 1; k < $1; k++)); do printf '\000\000\000\002'; done
}
nodes="2047: $(seq -s ' ' 1 2047)"
work=$(mktemp -d)
trap 'rm -rf "$work"' EXIT
{ flat; star 64; star 64; } > "$work/largest"
[ "$(wc -c < "$work/largest")" -eq 8715 ] || { echo 'ask.sh: the largest input is not 8,715 bytes'; failed=$((failed + 1)); }
ask < "$work/largest" | is 'the largest input, from a file' "view $nodes"$'\n'"query $nodes"$'\n''refused 8 rewriting'
{ cat "$work/largest"; printf '\001'; } | ask | is 'one byte more than the largest input' 'refused 2 input'
{ cat "$work/largest"; flat; flat; } | ask | is 'much more than the largest input' 'refused 2 input'
{ flat; star 32; star 32; } | ask | is '32 steps' "view $nodes"$'\n'"query $nodes"$'\n'"rewriting $nodes"
{ flat; star 32; star 33; } | ask | is '33 steps' "view $nodes"$'\n'"query $nodes"$'\n''refused 8 rewriting'
{ flat; star 65; star 2; } | ask | is 'a view of 65 steps' 'refused 2 view'
{ flat; star 33; star 2; printf '\001'; } | ask | is 'a byte too many where rewriting would be refused' 'refused 2 input'
{ bytes 1 32 4; tail -c +4 "$work/largest"; } | ask | is 'a document of 2,049 nodes' 'refused 2 document'

printf 'ask.sh: %d cases, %d failed\n' "$cases" "$failed"
[ "$failed" -eq 0 ] && [ "$cases" -eq 39 ]

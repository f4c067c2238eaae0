#!/usr/bin/env bash
# Makes the pack of forward.hps in the current folder: hp0.dsk and hp0.bad of an RP06. Its bad-sector table, of serial 1, lists
# block 1000; that block is marked, and its replacement, block 340647, is all 5A. All else is zeros.
set -e
if [ -e hp0.dsk ] || [ -e hp0.bad ]; then
  echo "hp0.dsk or hp0.bad is here already: use an empty folder" >&2
  exit 1
fi

# Writes 512 bytes of standard input to a block of the image.
put_block() { dd of=hp0.dsk bs=512 seek="$1" count=1 iflag=fullblock conv=notrunc status=none; }

# The table: serial 1, zero, flag; block 1000 as cylinder 2, track 7, sector 10; and then pairs of all ones.
table() {
  printf '\001\000\000\000\000\000\000\000\002\000\012\007'
  head -c 500 /dev/zero | tr '\000' '\377'
}

for copy in 340648 340650 340652 340654 340656; do table | put_block "$copy"; done
head -c 512 /dev/zero | tr '\000' '\132' | put_block 340647

# The marks: a byte for each block, and that of block 1000 is 1.
printf '\001' | dd of=hp0.bad bs=1 seek=1000 conv=notrunc status=none

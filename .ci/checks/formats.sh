#!/usr/bin/env bash
# The grammars' texts are the ones that were published, by their sums; the samples have the bytes that are due, and other
# programs read them.
# A program that is not installed is left out.
set -u
cd "$(dirname "$0")/../.." || exit 1
top=$PWD
. .ci/skips.sh
. dist/sources.sh
cd crates/tool_sample || exit 1
dir=$(mktemp -d) || exit 1
trap 'rm -rf "$dir"' EXIT
failed=0

# want NAME TEXT COMMAND..: the command succeeds and prints the text
want() {
  local name=$1 text=$2
  shift 2
  command -v "$1" >/dev/null || {
    skip "formats-$1" "$1"
    return 0
  }
  if "$@" 2>/dev/null | grep -q -- "$text"; then
    echo "formats: $1 reads the sample $name"
  else
    echo "formats: $1 does not read the sample $name" >&2
    failed=1
  fi
}

is_built tool_sample || command -v rt >/dev/null || { skip formats "the toolchain, or a tool_sample that was built" && exit 0; }
is_built tool_sample || rt run -- gif 3 </dev/null >/dev/null 2>"$dir/log" || { cat "$dir/log" >&2; exit 1; }
for name in elf pe gif pcap; do
  out/tool_sample "$name" >"$dir/$name.ipg" || failed=1
  out/tool_sample "$name" 3 >"$dir/$name" || failed=1
done

sed "s|  |  $dir/|" <<'SUMS' | sha256sum --check --quiet || failed=1
b26a65a7031b66ddaa6fd5c56c4af59e4a12592c8d4b0fe1d0f8f343302fad03  elf.ipg
86d354cbf9b57f039be692d4db5175eaa603127ce0186c1f5aaa4aae4166988c  pe.ipg
9c3f0d62b763551908ec3479fb6366ffdcf72c9336422c699cedb5623aa51205  gif.ipg
9af888c87b12879fd47b26d0d68b20942a94fc0ec6fd03085f980ba166304bf8  pcap.ipg
SUMS

# sample NAME COUNT: the sample of so many parts has these bytes, as the format's public standard lays them out
sample() {
  if [ "$(out/tool_sample "$1" "$2" | od -An -v -tx1 | tr -d ' \n')" != "$(tr -d '\n')" ]; then
    echo "formats: the sample $1 $2 is another" >&2
    failed=1
  fi
}

# e_ident; e_type to e_shstrndx; one Elf64_Shdr; one byte.
sample elf 1 <<'BYTES'
7f454c46020101000000000000000000
02003e0001000000
000000000000000000000000000000004000000000000000
00000000400000000000400001000000
000000000100000000000000000000000000000000000000
80000000000000000100000000000000
000000000000000001000000000000000000000000000000
00
BYTES
# The DOS header with e_lfanew; signature and file header; optional header up to NumberOfRvaAndSizes, sixteen bytes a line; one section header; one byte.
sample pe 1 <<'BYTES'
4d5a0000000000000000000000000000
00000000000000000000000000000000
00000000000000000000000000000000
00000000000000000000000040000000
50450000
6486010000000000000000000000000070000000
0b020000000000000000000000000000
00000000000000000000000000000000
00000000000000000000000000000000
00000000000000000000000000000000
00000000000000000000000000000000
00000000000000000000000000000000
00000000000000000000000000000000
00000000000000000100000000100000
01000000f000000000000000000000000000000000000000
00
BYTES
# Header; logical screen descriptor; comment extension; image descriptor; data; trailer.
sample gif 1 <<'BYTES'
474946383961
01000100000000
21fe010000
2c000000000100010000
0202440100
3b
BYTES
# File header; record header; Ethernet; IPv4; UDP; data.
sample pcap 1 <<'BYTES'
d4c3b2a1020004000000000000000000ffff000001000000
00000000000000002e0000002e000000
0200000000010200000000020800
4500002000000000401100000a0000010a000002
03e807d0000c0000
00000000
BYTES

# the lengths of samples with no part, one and the most
while read -r name lengths; do
  got=$(for count in 0 1 10000; do out/tool_sample "$name" "$count" | wc -c; done | tr '\n' ' ')
  if [ "$got" != "$lengths " ]; then
    echo "formats: the samples $name have $got bytes" >&2
    failed=1
  fi
done <<'LENGTHS'
elf 64 129 650064
pe 200 241 410200
gif 29 34 50029
pcap 24 86 620024
LENGTHS

want elf 'ELF 64-bit LSB executable, x86-64' file "$dir/elf"
want pe 'PE32+ executable' file "$dir/pe"
want gif 'GIF image data, version 89a, 1 x 1' file "$dir/gif"
want pcap 'capture file' file "$dir/pcap"
want elf 'Number of section headers: *3' readelf -h -S "$dir/elf"
want pe '2  *00000001  0000000000003000' objdump -h "$dir/pe"
want gif 'Image #1' giftext "$dir/gif"
want pcap 'UDP' tshark -r "$dir/pcap"
exit "$failed"

#!/usr/bin/env bash
# gallery_made.sh FORMAT SEEDS: files of the format, made by other programs in the folder at hand out of the three files of SEEDS.
# What a program that is not there would make is left out.
# shellcheck disable=SC2086
set -u
exec 2>/dev/null
PATH=$PATH:/usr/sbin:/sbin
export LC_ALL=C
seeds=$2
text=$seeds/text

# disk NAME SIZE PROGRAM: zeros for a program to write on, where it is there
disk() {
  command -v "$3" >/dev/null && truncate -s "$2" "$1"
}

# a solid of four sides, as a text
solid() {
  printf 'v %s\n' '0 0 0' '1 0 0' '0 1 0' '0 0 1' >a.obj
  printf 'f %s\n' '1 3 2' '1 2 4' '2 3 4' '1 4 3' >>a.obj
}

# film NAME WORDS..: some pictures and sound, written as the words say
film() {
  local name=$1
  shift
  ffmpeg -v error -y -f lavfi -i testsrc=d=0.4:s=64x48:r=10 -f lavfi -i sine=d=0.4 "$@" "$name" </dev/null
}

git_repository() {
  git init -q r && cp "$seeds"/* r
}

# packed SUFFIX: what a pack of a new commit has, for each of three commits
packed() {
  for i in 1 2 3; do
    git_repository && (cd r && git add . && git -c user.name=a -c user.email=b commit -qm "$i" && git gc -q && cp .git/objects/pack/*."$1" "../$i.$1")
    rm -rf r
  done
}

# python TEXT WORDS..: by the python3 that has the packages' modules
python() {
  /usr/bin/python3 -c "$@"
}

case $1 in
  ar)
    for m in D U Dc; do ar "-cr$m" "a$m.a" "$seeds"/*; done
    ar -crT thin.a "$seeds"/*
    llvm-ar cr l.a "$seeds"/* && llvm-ar --format=bsd cr b.a "$seeds"/*
    for f in arbsd arsvr4; do bsdtar -cf "$f.a" --format="$f" -C "$seeds" text zeros noise; done
    ;;
  arrow)
    echo 'table Int { bitWidth: int; is_signed: bool; } table Utf8 {} union Type { Null: Utf8, Int, Float: Utf8, Binary: Utf8, Utf8 }
      table Field { name: string; nullable: bool; type: Type; dictionary: Utf8; children: [Field]; }
      table Schema { endianness: short; fields: [Field]; } struct Block { offset: long; metaDataLength: int; bodyLength: long; }
      table Footer { version: short; schema: Schema; dictionaries: [Block]; recordBatches: [Block]; } root_type Footer;' >f.fbs
    echo '{ version: 4, schema: { fields: [ { name: "red", nullable: true, type_type: "Int", type: { bitWidth: 64, is_signed: true } },
      { name: "a longer name", type_type: "Utf8", type: {}, children: [] } ] }, recordBatches: [ { offset: 8, metaDataLength: 56, bodyLength: 8 } ] }' >f.json
    flatc -b f.fbs f.json >/dev/null && python 'import struct, sys; f = open("f.bin", "rb").read(); sys.stdout.buffer.write(
b"ARROW1\0\0" + b"\xff" * 4 + bytes(4) + f + struct.pack("<I", len(f)) + b"ARROW1")' >a.arrow
    rm -f f.*
    ;;
  ber)
    openssl req -x509 -newkey rsa:2048 -nodes -keyout key.pem -subj /CN=red -out cert.pem
    for f in "$seeds"/*; do
      openssl cms -sign -binary -nodetach -stream -in "$f" -signer cert.pem -inkey key.pem -outform DER -out "${f##*/}.cms"
    done
    rm -f ./*.pem
    ;;
  bmp)
    for t in Palette TrueColor Bilevel Grayscale; do convert -size 21x13 gradient:red-blue -type "$t" "BMP3:$t.bmp"; done
    convert rose: rose.bmp
    ;;
  bson)
    python 'import bson, datetime, sys
for n, one in enumerate(({}, {"a": 1, "b": -2 ** 40, "c": "red", "d": [1.5, None, True], "e": {"f": b"xyz"}},
                         {"t": datetime.datetime(2024, 2, 29), "i": bson.ObjectId(b"0123456789ab"), "r": bson.Regex("a*", "i")},
                         {"c": bson.Code("f()", {"x": 1}), "d": bson.Decimal128("1.5"), "m": bson.MinKey(), "n": bson.Timestamp(1, 2)})):
    open(f"{n}.bson", "wb").write(bson.encode(one))'
    ;;
  bzip2) for f in "$seeds"/*; do bzip2 -1 <"$f" >"${f##*/}.bz2"; done ;;
  cbor)
    python 'import cbor2, datetime, decimal, uuid
for n, one in enumerate((0, -1, 2 ** 63, 2 ** 64 - 1, -2 ** 63 - 5, -2 ** 64, 2 ** 70, 1.5, 1e300, float("nan"), "red", b"xyz", [], [1, [2, [3]]],
                         {"a": {1: None}}, True, datetime.datetime(2024, 2, 29, tzinfo=datetime.timezone.utc), decimal.Decimal("1.25"),
                         uuid.UUID(int=5), list(range(300)))):
    open(f"{n:02}.cbor", "wb").write(cbor2.dumps(one, value_sharing=isinstance(one, dict)))'
    ;;
  cpio)
    for h in bin odc newc crc hpbin hpodc; do find "$seeds" | cpio -o --quiet -H "$h" >"$h.cpio"; done
    cat newc.cpio odc.cpio >two.cpio
    for f in odc newc; do bsdtar -cf "b$f.cpio" --format="$f" -C "$seeds" text zeros noise; done
    for f in cpio sv4cpio sv4crc; do (cd "$seeds" && pax -w -x "$f" text zeros noise) >"$f.pax.cpio"; done
    find "$seeds" | busybox cpio -o -H newc >busybox.cpio
    ;;
  dds) for c in none dxt1 dxt5; do convert rose: -define "dds:compression=$c" "$c.dds"; done ;;
  der | x509) for f in $(find /etc/ssl/certs -name '*.pem' | sort | head -n 20); do openssl x509 -in "$f" -outform DER -out "$(basename "$f").der"; done ;;
  dns)
    python 'import dns.flags, dns.message, dns.rrset
for n, kind in enumerate(("A", "AAAA", "MX", "TXT", "SOA", "NS", "CNAME", "SRV", "PTR", "CAA")):
    one = dns.message.make_query("www.example.org.", kind, use_edns=n % 2 == 0)
    open(f"{kind}.query", "wb").write(one.to_wire())
    answer = dns.message.make_response(one)
    text = {"A": "192.0.2.7", "AAAA": "2001:db8::1", "MX": "10 mail.example.org.", "TXT": "\"a text\"", "NS": "ns.example.org.", "CNAME": "b.example.org.",
            "SOA": "ns.example.org. a.example.org. 1 2 3 4 5", "SRV": "1 2 80 b.example.org.", "PTR": "b.example.org.", "CAA": "0 issue \"c\""}[kind]
    answer.answer.append(dns.rrset.from_text("www.example.org.", 300, "IN", kind, text))
    open(f"{kind}.answer", "wb").write(answer.to_wire())'
    ;;
  dtb)
    printf '/dts-v1/;/ { a = <1 2 3>; b { c; d = "x", "yz"; e { }; }; };' >t.dts
    for v in '-p 100' '-S 4096' '-R 4'; do dtc -q -I dts -O dtb $v -o "t$v.dtb" t.dts; done
    rm t.dts
    ;;
  exfat) for c in 512 4K 32K; do disk "$c.img" 8M mkfs.exfat && mkfs.exfat -c "$c" -L red "$c.img" >/dev/null; done ;;
  ext)
    for t in ext2 ext3 ext4; do
      for b in 1024 4096; do "mkfs.$t" -q -F -b "$b" "$t$b.img" 8M; done
    done
    mkfs.ext4 -q -F -O 64bit,meta_bg,^resize_inode m.img 40M
    ;;
  fat)
    disk 12 1M mkfs.fat && mkfs.fat -F 12 12
    disk 16 20M mkfs.fat && mkfs.fat -F 16 16
    disk 32 40M mkfs.fat && mkfs.fat -F 32 32
    ;;
  flac)
    for r in 8000 44100 96000; do
      for c in 1 2; do sox -n -r "$r" -c "$c" "s$r$c.flac" synth 0.2 sine 440; done
    done
    ;;
  git-idx) packed idx ;;
  git-pack) packed pack ;;
  git-index)
    for v in 2 3; do
      git_repository && (cd r && git update-index --index-version "$v" && git add . && touch new && git add -N new && cp .git/index "../$v.index")
      rm -rf r
    done
    ;;
  glb)
    solid
    for o in '' -tri -jiv; do assimp export a.obj "a$o.glb" $o >/dev/null; done
    rm a.obj
    ;;
  gpt)
    for n in 1 4; do
      disk "$n.img" 4M sgdisk && for i in $(seq "$n"); do sgdisk -n "$i:+0:+512K" "$n.img"; done
    done >/dev/null
    ;;
  gzip) for f in "$seeds"/*; do gzip -c "$f" >"${f##*/}.gz" && gzip -nc "$f" >"${f##*/}.n.gz"; done ;;
  hdf5) for o in '' --latest; do h5mkgrp $o "g$o.h5" group; done ;;
  ico)
    convert -size 32x32 xc:red a.png && convert -size 16x16 xc:blue b.png
    icotool -c -o two.ico a.png b.png && icotool -c -o raw.ico -r a.png && icotool -c --cursor -o one.cur b.png
    rm -f ./*.png
    ;;
  iso9660)
    mkdir -p t/d && for i in $(seq 302); do echo "$i" >"t/d/a_name_that_is_long_$i"; done
    for o in '' -R '-R -J' '-l -r'; do genisoimage -quiet $o -o "i$o.iso" t; done
    rm -r t
    ;;
  java-class)
    for f in $(find /usr/share/java /usr/share/maven-repo -name '*.jar' -size +8k -size -900k | sort | head -n 1); do unzip -qo "$f" '*.class'; done
    ;;
  jpeg)
    for o in '' '-interlace Plane' '-colorspace Gray' '-quality 30 -sampling-factor 2x2' '-define jpeg:restart-interval=4'; do
      convert rose: $o "r$o.jpg"
    done
    convert rose: -resize 16x16 t.jpg && convert rose: e.jpg && for o in II MM; do
      exiftool -q -o "$o.jpg" -ExifByteOrder="$o" -Make=Red -ExposureTime=1/125 -GPSLatitude=1.5 -UserComment='a text' '-ThumbnailImage<=t.jpg' e.jpg
    done
    ;;
  luks)
    for v in 1 2; do
      disk "l$v.img" 20M cryptsetup && echo -n red | cryptsetup luksFormat -q --type "luks$v" --pbkdf pbkdf2 --pbkdf-force-iterations 1000 "l$v.img" -
    done
    ;;
  lz4)
    for f in "$seeds"/*; do
      for o in -1 -9 '-BX -B4' --content-size --no-frame-crc -l; do lz4 -q $o "$f" "${f##*/}$o.lz4"; done
    done
    ;;
  macho)
    echo 'int f(int a){return a+1;} int b = 5;' >a.c
    for t in x86_64 arm64 i386; do clang -target "$t-apple-macos" -c a.c -o "$t.o"; done
    rm a.c
    ;;
  matroska)
    for r in 8000 44100; do
      sox -n -r "$r" s.flac synth 0.5 sine 440 && mkvmerge -q -o "$r.mkv" s.flac && mkvmerge -q --disable-lacing -o "$r.mka" s.flac
    done
    rm -f s.flac
    film a.mkv -c:v mpeg4 -c:a libvorbis && film b.webm -c:v libvpx -c:a libopus
    ;;
  mbr)
    for n in 1 2; do
      disk "$n.img" 4M sfdisk && printf ',1M\n,1M\n' | head -n "$n" | sfdisk -q "$n.img" && head -c 512 "$n.img" >"$n.sector"
    done
    ;;
  midi)
    printf 'X:1\nT:a\nM:4/4\nL:1/4\nQ:1/4=120\nK:C\nCDEF|GABc|[CEG]2 z2|\n' >a.abc
    abc2midi a.abc -o a.mid >/dev/null && abc2midi a.abc -RS -o b.mid >/dev/null
    printf 'X:1\nT:b\nM:3/4\nL:1/8\nK:G\nV:1\nGABc|\nV:2\nG,4|\n' >b.abc && abc2midi b.abc -o c.mid >/dev/null
    rm ./*.abc
    ;;
  mo)
    printf 'msgid "a"\nmsgstr "b"\n' >a.po
    msgfmt -o a.mo a.po && msgfmt --no-hash --endianness=big -o b.mo a.po
    rm a.po
    ;;
  mp4)
    film a.mp4 -c:v mpeg4 -c:a aac && film b.mov -c:v mpeg4 -c:a pcm_s16le && film c.3gp -c:v mpeg4 -c:a aac
    film d.mp4 -c:v mpeg4 -c:a aac -movflags frag_keyframe+empty_moov && film e.mp4 -c:v libx264 -bf 2 -c:a aac -movflags +faststart
    film f.mp4 -c:v libx264 -c:a flac -strict -2 -movflags frag_keyframe+default_base_moof
    ;;
  msgpack)
    python 'import msgpack
for n, one in enumerate((0, -1, 127, 128, -33, 2 ** 16, 2 ** 32, 2 ** 63, 2 ** 64 - 1, -2 ** 63, 1.5, None, True, "red", "x" * 300, b"xyz", [1, [2]],
                         {"a": {"b": []}}, msgpack.ExtType(5, b"abc"), msgpack.Timestamp(1709209858, 5))):
    open(f"{n:02}.msgpack", "wb").write(msgpack.packb(one))'
    ;;
  ntfs) for c in 512 4096; do disk "$c.img" 8M mkntfs && mkntfs -qF -c "$c" "$c.img" >/dev/null; done ;;
  ogg)
    for r in 8000 44100; do
      for c in 1 2; do sox -n -r "$r" -c "$c" "s$r$c.ogg" synth 0.5 sine 440; done
    done
    film a.ogv -c:v libtheora -c:a libvorbis && film b.opus -vn -c:a libopus && film c.oga -vn -c:a flac
    ;;
  packets) for t in 1 101; do od -Ax -tx1 -v "$text" | head -n 40 | text2pcap -q -F pcap -l "$t" - "$t.pcap"; done ;;
  pcapng) for t in 1 101 113; do od -Ax -tx1 -v "$text" | head -n 40 | text2pcap -q -n -l "$t" - "$t.pcapng"; done ;;
  pdb)
    echo 'struct s { int a; char *b; }; int f(struct s *s) { return s->a; } int g(void) { struct s s = {1, 0}; return f(&s); }' >a.c
    for o in -O0 -O2; do
      clang --target=x86_64-windows-msvc -g -gcodeview "$o" -c a.c -o a.obj &&
        lld-link -debug -nodefaultlib -entry:g -subsystem:console -pdb:"a$o.pdb" -out:a.exe a.obj
    done
    rm -f a.c a.obj a.exe
    ;;
  png)
    for t in Palette TrueColor TrueColorAlpha Bilevel Grayscale; do convert rose: -type "$t" -set comment hello "$t.png"; done
    convert rose: -transparent red -background blue -type PaletteAlpha t.png
    convert rose: e.png && exiftool -q -overwrite_original -Make=Red -Artist=abcdefgh -ExposureTime=1/125 e.png
    ffmpeg -v error -f lavfi -i testsrc=d=0.3:s=32x24:r=10 -f apng a.png </dev/null
    ;;
  psd)
    for c in none rle; do convert rose: -compress "$c" "$c.psd"; done
    convert rose: rose.psb
    ;;
  protobuf)
    echo 'syntax = "proto3"; message M { int64 a = 1; string b = 2; repeated M c = 3; fixed32 d = 20; double e = 5; repeated sint32 f = 6; }' >m.proto
    echo 'a: -5 b: "red" c { a: 7 c { b: "x" } } d: 9 e: 1.5 f: -1 f: 300' | protoc --encode=M m.proto >a.pb
    echo 'c { } c { f: 1 } b: "a text that is no message"' | protoc --encode=M m.proto >b.pb
    rm -f m.proto
    ;;
  qcow2)
    for o in compat=1.1 compat=0.10 cluster_size=4k lazy_refcounts=on extended_l2=on; do qemu-img create -q -f qcow2 -o "$o" "$o.img" 30M; done
    ;;
  rdb)
    redis-server --port 0 --unixsocket "$PWD/socket" --dir "$PWD" --save '' --daemonize no >/dev/null &
    for _ in 1 2 3 4 5 6 7 8; do
      if redis-cli -s socket ping >/dev/null; then break; else sleep 0.2; fi
    done
    printf '%s\n' 'set a hello' 'set n -7' 'expire a 1000' 'rpush l 1 2 three' 'sadd s a b' 'sadd i 1 2 3' 'hset h f v' 'zadd z 1 a 2.5 b' \
      'select 3' 'set o p' save 'shutdown nosave' | redis-cli -s socket >/dev/null
    wait
    rm -f socket
    ;;
  riff)
    for e in signed-integer a-law ima-adpcm; do sox -n -e "$e" "$e.wav" synth 0.1 sine 440; done
    sox -n b.wav synth 0.1 && sox -n -t wav -B x.wav synth 0.1
    film a.avi -c:v mpeg4 -c:a mp2 && film r.wav -vn -rf64 always && film - -vn -f wav >pipe.wav
    ;;
  sevenzip) for o in '' -mhc=off -m0=bzip2 -m0=copy; do 7z a -bd -bso0 -bsp0 $o "a$o.7z" "$seeds"/*; done ;;
  sqlite)
    for p in 512 1024 4096 65536; do
      sqlite3 "$p.db" "pragma page_size=$p; create table t(a,b); create index i on t(a); with recursive
        c(x) as (select 1 union all select x+1 from c where x<300) insert into t select x, hex(zeroblob(x)) from c; delete from t where a%7=0;"
    done
    ;;
  sqlite-wal)
    for p in 512 4096; do
      printf 'pragma page_size=%s; pragma journal_mode=wal; create table t(a); insert into t values(1);\n.shell cp w%s.db-wal %s.wal\n' \
        "$p" "$p" "$p" | sqlite3 "w$p.db" >/dev/null
    done
    rm -f w*
    ;;
  sshkey)
    for t in ed25519 rsa ecdsa; do
      ssh-keygen -q -t "$t" -N '' -f k && grep -v -e ---- k | base64 -d >"$t.private" && cut -d ' ' -f 2 k.pub | base64 -d >"$t.public"
      rm -f k k.pub
    done
    ;;
  squashfs)
    for c in gzip xz lz4 zstd; do mksquashfs "$seeds" "$c.img" -comp "$c" -quiet -no-progress >/dev/null; done
    mksquashfs "$seeds" n.img -noI -noD -no-fragments -quiet -no-progress >/dev/null
    ;;
  stl)
    solid
    assimp export a.obj a.stl -fstlb >/dev/null && admesh --write-binary-stl=b.stl a.stl >/dev/null
    rm a.obj
    ;;
  tar)
    for f in v7 oldgnu gnu ustar posix; do tar -cf "$f.tar" --format="$f" "$seeds"; done
    for f in v7 gnutar ustar pax; do bsdtar -cf "bsd$f.tar" --format="$f" -C "$seeds" text zeros noise; done
    for f in tar ustar; do find "$seeds" | cpio -o --quiet -H "$f" >"cpio$f.tar"; done
    busybox tar -cf busybox.tar "$seeds" && 7z a -bd -bso0 -bsp0 -ttar 7z.tar "$seeds"/* && (cd "$seeds" && pax -w -x ustar text noise) >pax.tar
    python 'import sys, tarfile; made = tarfile.open("python.tar", "w"); made.add(sys.argv[1]); made.close()' "$seeds"
    perl -MArchive::Tar -e 'Archive::Tar->create_archive("perl.tar", 0, @ARGV)' "$seeds"/*
    truncate -s 50K sparse && tar -cSf sparse.tar --format=oldgnu sparse
    rm sparse
    # the two blocks of zeros at the end are left out
    head -c 13312 /dev/zero >zeros && tar -b 1 -cf - zeros | head -c 13824 >short.tar
    rm zeros
    ;;
  tiff)
    for c in none lzw zip rle; do convert rose: -compress "$c" "$c.tif"; done
    convert rose: -define tiff:endian=msb msb.tif && convert rose: rose: two.tif
    ;;
  tls)
    openssl req -x509 -newkey rsa:2048 -nodes -keyout key.pem -subj /CN=red -out cert.pem
    python 'import ssl
for version in (ssl.TLSVersion.TLSv1_2, ssl.TLSVersion.TLSv1_3):
    server, client = ssl.SSLContext(ssl.PROTOCOL_TLS_SERVER), ssl.SSLContext(ssl.PROTOCOL_TLS_CLIENT)
    server.load_cert_chain("cert.pem", "key.pem")
    client.check_hostname, client.verify_mode, client.maximum_version = False, ssl.CERT_NONE, version
    up, down = ssl.MemoryBIO(), ssl.MemoryBIO()
    ends = client.wrap_bio(down, up, server_hostname="example.org"), server.wrap_bio(up, down, server_side=True)
    for turn in range(4):
        try:
            ends[turn % 2].do_handshake()
        except ssl.SSLWantReadError:
            pass
        way = (up, down)[turn % 2]
        data = way.read()
        if data:
            open(f"{version.name}.{turn}.tls", "wb").write(data)
        way.write(data)'
    rm -f ./*.pem
    ;;
  torrent)
    for o in '' -p '-l 15'; do mktorrent -a http://example.org/announce $o -o "a$o.torrent" "$seeds" >/dev/null; done
    mktorrent -a http://a.example.org/b,http://b.example.org/c -c 'a text' -w http://example.org/d -o one.torrent "$text" >/dev/null
    ;;
  utmp)
    printf '%s\n' '[2] [00000] [~~  ] [reboot  ] [~           ] [6.1.0               ] [0.0.0.0        ] [2024-02-29T12:30:58,000005+00:00]' \
      '[7] [01234] [ts/0] [red     ] [pts/0       ] [host.example.org    ] [192.0.2.7      ] [2024-02-29T12:31:58,000006+00:00]' >a.txt
    utmpdump -r <a.txt >wtmp
    rm a.txt
    ;;
  vhd) for s in dynamic fixed; do qemu-img create -q -f vpc -o "subformat=$s" "$s.vhd" 2M; done ;;
  wasm)
    echo 'int g(void); int f(int a){return a+g();}' >a.c
    for o in 0 2 g; do clang --target=wasm32 "-O$o" -c a.c -o "$o.wasm"; done
    echo '(module (memory 1) (func (export "a") (param i32) (result i32) local.get 0))' >a.wat
    wat2wasm a.wat -o a.wasm
    rm a.c a.wat
    ;;
  wav)
    for b in 8 16 24 32; do
      for o in '' -B; do sox -n -b "$b" -t wav $o "w$b$o.wav" synth 0.1 sine 440; done
    done
    sox -n -e float f.wav synth 0.1 && sox -n -t wav - synth 0.1 >pipe.wav
    film r.wav -vn -rf64 always && film - -vn -f wav >piped.wav
    ;;
  webp)
    convert rose: r.png
    for o in '-q 50' -lossless '-q 50 -alpha_q 20'; do cwebp -quiet $o r.png -o "r$o.webp"; done
    rm r.png
    ;;
  woff)
    for f in $(find /usr/share/fonts -name '*.ttf' -size -400k | sort | head -n 3); do
      /usr/bin/python3 -c "import sys; from fontTools.ttLib import TTFont; f = TTFont(sys.argv[1]); f.flavor = 'woff'; f.save(sys.argv[2])" \
        "$f" "$(basename "$f").woff"
    done
    ;;
  xz)
    for f in "$seeds"/*; do
      for o in -0 -9 --check=none --check=sha256 --block-size=2000 '--x86 --lzma2'; do xz -ck $o "$f" >"${f##*/}$o.xz"; done
    done
    : | xz -c >empty.xz
    ;;
  zip)
    zip -q a.zip "$seeds"/*
    (echo '#!/bin/sh' && cat a.zip) >before.zip
    (cat a.zip && echo behind) >behind.zip
    cp before.zip fixed.zip && zip -qA fixed.zip
    zip -q stream.zip - <"$text" && zip -q -fz wide.zip "$seeds"/* && echo hello | zip -qz a.zip
    bsdtar -cf b.zip --format=zip -C "$seeds" text zeros noise && 7z a -bd -bso0 -bsp0 -tzip 7z.zip "$seeds"/*
    python 'import sys, zipfile; zipfile.main()' -c python.zip "$seeds" && jar -cf a.jar -C "$seeds" .
    ;;
  zstd)
    for f in "$seeds"/*; do
      for o in -1 -19 --no-check; do zstd -q "$o" "$f" -o "${f##*/}$o.zst"; done
      zstd -qc <"$f" >"${f##*/}.stream.zst"
    done
    ;;
esac
exit 0

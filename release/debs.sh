#!/usr/bin/env bash
# For ../release.sh: packages for Debian on amd64, of an install.
#   debs.sh STAGE VERSION OUT     with SOURCE_DATE_EPOCH and MAINTAINER
set -eu
umask 022
cd "$(dirname -- "$0")/.."
stage=$1 version=$2 out=$3
room="$(mktemp -d)"
trap 'rm -rf "$room"' EXIT
libraries=usr/lib/x86_64-linux-gnu
python=usr/lib/python3/dist-packages

# take FROM TO: a part of the install, below the root of the package at hand
take() {
  mkdir -p "$root/$(dirname "$2")"
  cp -a "$stage/$1" "$root/$2"
}

# begin PACKAGE
begin() {
  package=$1 root="$room/$1"
  mkdir -p "$root/DEBIAN" "$root/usr/share/doc/$1"
}

# about SECTION DEPENDS SUMMARY TEXT: the package's control file
about() {
  printf '%s\n' "Package: $package" "Version: $version" 'Architecture: amd64' "Maintainer: $MAINTAINER" \
    "Installed-Size: $(du -k --apparent-size -s "$root/usr" | cut -f 1)" "Section: $1" 'Priority: optional' \
    "Depends: $2" "Description: $3" >"$root/DEBIAN/control"
  fold -s -w 72 <<<"$4" | sed 's/^/ /; s/ *$//' >>"$root/DEBIAN/control"
}

# its licence, its changes, and why a lintian's remark is passed over
doc() {
  local folder="$root/usr/share/doc/$package"
  {
    printf '%s\n' 'Format: https://www.debian.org/doc/packaging-manuals/copyright-format/1.0/' 'Upstream-Name: ipg' '' 'Files: *' \
      'Copyright: the authors of ipg' 'License: MIT or Apache-2.0' ' On Debian the text of Apache-2.0 is in /usr/share/common-licenses/Apache-2.0.' \
      ' That of MIT, and what else is linked in:' ' .'
    cat LICENSE-MIT NOTICE | sed 's/^$/./; s/^/ /'
  } >"$folder/copyright"
  printf 'ipg (%s) unstable; urgency=medium\n\n  * See CHANGELOG.md of the sources.\n\n -- %s  %s\n' "$version" "$MAINTAINER" \
    "$(date -u -R -d "@$SOURCE_DATE_EPOCH")" | gzip -9n >"$folder/changelog.gz"
}

# passed TAG WHY: a remark of lintian's that is passed over
passed() {
  mkdir -p "$root/usr/share/lintian/overrides"
  printf '# %s\n%s: %s\n' "$2" "$package" "$1" >>"$root/usr/share/lintian/overrides/$package"
}

# build: the package, of files of one time
build() {
  (cd "$root" && find usr -type f -print0 | LC_ALL=C sort -z | xargs -0 md5sum >DEBIAN/md5sums)
  find "$root" -print0 | xargs -0 touch -h -d "@$SOURCE_DATE_EPOCH"
  dpkg-deb --root-owner-group -Zxz -b "$root" "$out/${package}_${version}_amd64.deb" >/dev/null
}

program() {
  begin ipg
  take bin usr/bin
  take share/man usr/share/man
  gzip -9n "$root"/usr/share/man/man1/*.1
  take share/bash-completion usr/share/bash-completion
  take share/zsh/site-functions usr/share/zsh/vendor-completions
  take share/ipg usr/share/ipg
  chmod 755 "$root/usr/share/ipg/formats/each.sh"
  doc
  passed 'unstripped-binary-or-object [usr/bin/ipg]' "it is the program that was proved and built, byte for byte"
  about utils 'libc6 (>= 2.34)' 'parse binary files by Interval Parsing Grammars' \
    'A proved parser: it answers what the grammar means, whatever the file holds. It comes with grammars of some 80 formats.'
  build
}

library() {
  begin libipg1
  take lib/libipg.so.1 "$libraries/libipg.so.1"
  chmod 644 "$root/$libraries/libipg.so.1"
  printf 'activate-noawait ldconfig\n' >"$root/DEBIAN/triggers"
  printf 'libipg 1 libipg1 (>= %s)\n' "$version" >"$root/DEBIAN/shlibs"
  doc
  about libs 'libc6 (>= 2.14)' 'parse binary files by Interval Parsing Grammars: library' \
    'The proved parser for programs in C and C++: the whole command line over words and files in memory, and trees as rows of numbers.'
  sed -i '/^Section/a Multi-Arch: same' "$root/DEBIAN/control"
  build
}

headers() {
  begin libipg-dev
  take include/ipg.h usr/include/ipg.h
  take lib/libipg.so "$libraries/libipg.so"
  mkdir -p "$root/$libraries/pkgconfig"
  # shellcheck disable=SC2016
  sed -e '1s|.*|prefix=/usr|' -e 's|^libdir=.*|libdir=${prefix}/lib/x86_64-linux-gnu|' "$stage/lib/pkgconfig/ipg.pc" >"$root/$libraries/pkgconfig/ipg.pc"
  doc
  about libdevel "libipg1 (= $version)" 'parse binary files by Interval Parsing Grammars: header' \
    'What it takes to build programs in C and C++ that parse by Interval Parsing Grammars.'
  build
}

# python3's own scripts compile what is installed, and take that away
packages() {
  begin python3-ipg
  mkdir -p "$root/$python/ipg-$version.dist-info"
  cp -r lib/python/ipg "$root/$python/ipg"
  ln -s ../../../x86_64-linux-gnu/libipg.so.1 "$root/$python/ipg/libipg.so"
  printf 'Metadata-Version: 2.1\nName: ipg\nVersion: %s\n' "$version" >"$root/$python/ipg-$version.dist-info/METADATA"
  printf '#!/bin/sh\nset -e\nif command -v py3compile >/dev/null; then py3compile -p python3-ipg; fi\n' >"$root/DEBIAN/postinst"
  printf '#!/bin/sh\nset -e\nif command -v py3clean >/dev/null; then py3clean -p python3-ipg; fi\n' >"$root/DEBIAN/prerm"
  chmod 755 "$root/DEBIAN/postinst" "$root/DEBIAN/prerm"
  doc
  about python "python3:any, ipg (= $version), libipg1 (= $version)" 'parse binary files by Interval Parsing Grammars: Python' \
    'The proved parser for programs in Python, with the grammars that come with ipg.'
  build
}

program && library && headers && packages

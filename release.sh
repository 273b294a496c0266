#!/usr/bin/env bash
# Makes what is handed out of a release, of the last commit; the same commit and tools give the same bytes.
#   ./release.sh [FOLDER]     to release/out, or to FOLDER, which is made anew
# The programs are those that dist/ keeps, so the toolchain isn't wanted.
set -eu
unset CDPATH
export LC_ALL=C TZ=UTC
umask 022
top="$(dirname -- "$(readlink -f -- "${BASH_SOURCE[0]}")")"
out="$(readlink -m -- "${1-$top/release/out}")"

fail() {
  echo "release: $1" >&2
  exit "${2-1}"
}

missing=()
for tool in git gzip npm python3 sha256sum tar xz zip dpkg-deb; do command -v "$tool" >/dev/null || missing+=("$tool"); done
[ "${#missing[@]}" -eq 0 ] || fail "missing: ${missing[*]}. Without them ./install.sh installs what dist/ keeps." 70
[ -z "$(git -C "$top" status --porcelain --untracked-files=no)" ] || fail "there are changes that no commit has"
SOURCE_DATE_EPOCH=$(git -C "$top" log -1 --format=%ct)
MAINTAINER=$(git -C "$top" log -1 --format='%an <%ae>')
export SOURCE_DATE_EPOCH MAINTAINER
room="$(mktemp -d)"
trap 'rm -rf "$room"' EXIT
mkdir "$room/src"
git -C "$top" archive HEAD | tar -x -C "$room/src"
cd "$room/src"
sha256sum --quiet -c dist/TARGETS dist/STUDIO || fail "dist/ isn't of these sources"
version=$(dist/ipg version | sed -n '1s/^ipg //p')
rm -rf -- "$out"
mkdir -p -- "$out"

# pages FOLDER: the pages, as they link to each other
pages() {
  mkdir -p "$1"
  cp -r --parents ./*.md LICENSE-* NOTICE docs/*.md docs/*.png lib/README.md lib/examples lib/include targets/README.md targets/SIZES targets/page.html \
    targets/ipg.mjs targets/ipg.d.ts studio/README.md formats/README.md crates/README.md editors/README.md "$1"
}

# set_times FOLDER
set_times() {
  find "$1" -print0 | xargs -0 touch -h -d "@$SOURCE_DATE_EPOCH"
}

# packed FOLDER: a folder of $room as an archive by its name
packed() {
  set_times "$room/$1"
  tar --sort=name --mtime="@$SOURCE_DATE_EPOCH" --owner=0 --group=0 --numeric-owner --format=gnu -C "$room" -cf - "$1" | gzip -9n >"$out/$1.tar.gz"
}

# staged: an install, which may be moved to any folder
staged() {
  DESTDIR="$room" ./install.sh /stage >/dev/null || fail "it can't be installed"
  rm "$room/stage/share/ipg/installed"
  # shellcheck disable=SC2016
  sed -i '1s|.*|prefix=${pcfiledir}/../..|' "$room/stage/lib/pkgconfig/ipg.pc"
  pages "$room/stage/share/doc/ipg"
}

# linux TARGET PROGRAM [LIBRARY]: an archive of the install with that program and library
linux() {
  local name=ipg-$version-$1
  cp -a "$room/stage" "$room/$name"
  install -m 755 "dist/$2" "$room/$name/bin/ipg"
  if [ -n "${3-}" ]; then
    install -m 755 "dist/$3" "$room/$name/lib/libipg.so.1"
  else
    rm -r "${room:?}/$name/lib" "$room/$name/include"
  fi
  if ! is_dynamic "dist/$2"; then cp release/licences/LGPL-2.1 "$room/$name/share/licenses/ipg/"; fi
  packed "$name"
}

# is_dynamic FILE: whether a program takes the system's C library; one that doesn't brings glibc
is_dynamic() {
  grep -q 'libc\.so\.6' "$1"
}

windows() {
  local name=ipg-$version-x86_64-windows
  mkdir -p "$room/$name/bin" "$room/$name/include"
  cp -a "$room/stage/share" "$room/$name/share"
  rm -r "$room/$name"/share/{man,bash-completion,zsh}
  cp dist/ipg.exe dist/ipg.dll "$room/$name/bin/"
  cp lib/include/ipg.h "$room/$name/include/"
  set_times "$room/$name"
  (cd "$room" && find "$name" -type f | sort | zip -q -9 -X "$out/$name.zip" -@)
}

# wheel TARGET: for this machine where none is named
wheel() {
  (cd lib/python/backend && IPG_TARGET=$1 python3 -B -c 'import sys, wheels; wheels.build_wheel(sys.argv[1])' "$out")
}

# certificate GRAMMAR NAME: a file of $room/certificates, which is checked too
certificate() {
  dist/ipg cert "$1" >"$certificates/$2" || fail "$1 has no certificate"
  [ "$(dist/ipg verify "$1" "$certificates/$2")" = verified ] || fail "the certificate of $1 doesn't check"
}

certificates() {
  local grammar
  certificates="$room/ipg-$version-certificates"
  mkdir "$certificates"
  for grammar in @elf @gif @pcap @pe; do certificate "$grammar" "built-in-${grammar#@}"; done
  for grammar in formats/*.ipg; do certificate "$grammar" "$(basename "$grammar" .ipg)"; done
  packed "ipg-$version-certificates"
}

staged
linux x86_64-linux ipg libipg.so
linux x86_64-linux-static ipg-static
linux aarch64-linux ipg-aarch64 libipg-aarch64.so
windows
for target in '' aarch64-linux x86_64-windows; do wheel "$target"; done
(cd targets && npm_config_cache="$room/npm" npm pack --silent --offline --pack-destination "$out" >/dev/null)
cp dist/studio.html "$out/"
certificates
release/debs.sh "$room/stage" "$version" "$out"
python3 -B release/notice.py spdx "$(date -u -d "@$SOURCE_DATE_EPOCH" +%FT%TZ)" ipg libipg.so ipg-static ipg-aarch64 libipg-aarch64.so ipg.exe \
  ipg.dll ipg.wasm >"$out/ipg-$version.spdx.json"
(cd "$out" && sha256sum -- * >"$room/SHA256SUMS" && mv "$room/SHA256SUMS" .)
echo "release: $(find "$out" -type f | wc -l) files in $out"

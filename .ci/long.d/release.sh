#!/usr/bin/env bash
# A release, twice and bit for bit; then, in a fresh root with Debian's base, gcc and python3: README's commands in their order from the
# sources, and the packages for Debian, which leave nothing behind. It takes minutes, most of them for the root.
# RELEASE_OUT may name the folder of a release that was made beforehand, RELEASE_ROOT a root that debootstrap made, which is copied.
# matter: release.sh release dist install.sh lib docs README.md NOTICE
set -u
cd "$(dirname "$0")/../.." || exit 1
. .ci/skips.sh
folder=$(mktemp -d) || exit 1
trap 'rm -rf "$folder"' EXIT
failed=0

# says WHAT COMMAND..: runs a command, and says whether it did
says() {
  local what=$1
  shift
  if "$@" >"$folder/said" 2>&1; then echo "release: $what"; else
    cat "$folder/said"
    echo "release: failed: $what"
    failed=1
  fi
}

for tool in git npm zip dpkg-deb python3; do
  command -v "$tool" >/dev/null || { skip release "$tool" && exit 0; }
done
# what is released is a commit: that of a clone, in two places
if [ -z "${RELEASE_OUT-}" ]; then
  for copy in one another; do
    git clone -q . "$folder/$copy" && "$folder/$copy/release.sh" "$folder/out.$copy" || exit 1
  done
  says "twice the same, bit for bit" diff -r "$folder/out.one" "$folder/out.another"
fi
out=${RELEASE_OUT-$folder/out.one}
says "the sums" sh -c 'cd "$1" && sha256sum --quiet -c SHA256SUMS && test "$(ls | wc -l)" -eq "$(($(wc -l <SHA256SUMS) + 1))"' sh "$out"
version=$(dist/ipg version | sed -n '1s/^ipg //p')

# an archive, unpacked anywhere: the programs are those that are kept, and the one of this machine runs
tar -x -C "$folder" -f "$out/ipg-$version-x86_64-linux.tar.gz" && tar -x -C "$folder" -f "$out/ipg-$version-aarch64-linux.tar.gz" || failed=1
says "the program for Linux" cmp "$folder/ipg-$version-x86_64-linux/bin/ipg" dist/ipg
says "the library for arm64" cmp "$folder/ipg-$version-aarch64-linux/lib/libipg.so.1" dist/libipg-aarch64.so
says "a grammar by its name" test "$("$folder/ipg-$version-x86_64-linux/bin/ipg" check @png)" = accepted
says "a format guessed" test "$("$folder/ipg-$version-x86_64-linux/bin/ipg-open" -l docs/studio.png)" = png
if command -v unzip >/dev/null; then
  unzip -q -d "$folder" "$out/ipg-$version-x86_64-windows.zip" || failed=1
  says "the program for Windows" cmp "$folder/ipg-$version-x86_64-windows/bin/ipg.exe" dist/ipg.exe
else
  skip release-zip unzip
fi
tar -x -C "$folder" -f "$out/ipg-$version-certificates.tar.gz" || failed=1
says "a certificate" test "$(dist/ipg verify formats/png.ipg "$folder/ipg-$version-certificates/png")" = verified
says "one for each grammar" test "$(find "$folder/ipg-$version-certificates" -type f | wc -l)" -eq "$(($(find formats -name '*.ipg' | wc -l) + 4))"
if command -v lintian >/dev/null; then
  says "lintian" lintian --no-cfg --allow-root --fail-on error,warning "$out"/*.deb
else
  skip release-lintian lintian
fi

# inside COMMAND..: in the fresh root, with nothing but the system's own path; /proc is there as long as the command runs
inside() {
  # shellcheck disable=SC2016
  unshare --mount sh -c 'mount -t proc proc "$1/proc" && exec chroot "$@"' sh "$folder/root" env -i PATH=/usr/sbin:/usr/bin:/sbin:/bin HOME=/root \
    LC_ALL=C.UTF-8 "$@"
}

# what lies in the root, but for what dpkg and ldconfig write of themselves
listed() {
  (cd "$folder/root" && find . -xdev ! -path './var/lib/dpkg*' ! -path './var/log/*' ! -path './var/cache/ldconfig*' ! -path './tmp/*' \
    ! -path './proc/*' ! -path './dev/*' -printf '%p %y %l\n' | LC_ALL=C sort)
}

# the packages: a file opened, a C program, a Python program, and all of it away again
packages() {
  mkdir "$folder/root/tmp/debs" && cp "$out"/*.deb docs/studio.png lib/examples/elf_sections.c lib/examples/sections.py "$folder/root/tmp/debs/" || return 1
  listed >"$folder/before"
  says "installed" inside sh -c 'dpkg -i /tmp/debs/*.deb'
  says "the program" test "$(inside ipg version | head -n 1)" = "ipg $version"
  says "a file is opened" test "$(inside ipg-open -l /tmp/debs/studio.png)" = png
  says "a C program is compiled" inside cc -Wall -Werror -o /tmp/debs/sections /tmp/debs/elf_sections.c -lipg
  says "and runs" test "$(inside /tmp/debs/sections /usr/bin/ipg | wc -l)" -gt 10
  says "a Python program, with the same sections" test \
    "$(inside /tmp/debs/sections /usr/bin/ipg | while read -r number at size; do printf '%d %d %d\n' "$number" "$at" "$size"; done)" = \
    "$(inside python3 /tmp/debs/sections.py /usr/bin/ipg)"
  says "a grammar of the package" test "$(inside python3 -c 'import ipg; print(ipg.open("/tmp/debs/studio.png").rule)')" = Png
  says "removed" inside dpkg --purge python3-ipg libipg-dev ipg libipg1
  listed >"$folder/after"
  says "nothing is left" diff "$folder/before" "$folder/after"
}

# a fresh root
made_root() {
  if [ -n "${RELEASE_ROOT-}" ]; then
    cp -a "$RELEASE_ROOT" "$folder/root"
  else
    debootstrap --variant=minbase --include=gcc,libc6-dev,python3 bookworm "$folder/root" >"$folder/log" 2>&1
  fi
}

if [ "$(id -u)" -eq 0 ] && command -v debootstrap >/dev/null && unshare --mount true && made_root; then
  packages
  git clone -q . "$folder/root/src" || failed=1
  says "README's commands in a fresh root" inside python3 -B /src/.ci/front.py readme
  tail -n 1 "$folder/said"
else
  skip release-root "root, debootstrap and its packages"
fi
exit "$failed"

#!/usr/bin/env bash
# Installs the proved program and all that comes with it below PREFIX, by default /usr/local, where the system looks for such files; or takes that away.
#   ./install.sh [--python] [PREFIX]      with --python the package for Python too, where python3 looks for packages below PREFIX
#   ./install.sh uninstall [PREFIX]
# DESTDIR=FOLDER puts all of it below FOLDER, as makers of packages want it.
set -u
unset CDPATH
top="$(dirname -- "$(readlink -f -- "${BASH_SOURCE[0]}")")"
. "$top/dist/sources.sh"
# what was put where, so that just that is taken away
list=share/ipg/installed

usage() {
  echo "./install.sh [--python] [PREFIX], or ./install.sh uninstall [PREFIX]" >&2
  exit 1
}

# folders NAME: makes a folder below the root, and those above it, and notes which ones were not there
folders() {
  [ -d "$root/$1" ] && return
  case $1 in */*) folders "${1%/*}" || return 1 ;; esac
  install -d -m 755 -- "$root/$1" && made=("folder $1" "${made[@]}")
}

# put MODE FILE NAME: a copy of the file
put() {
  folders "${3%/*}" && install -m "$1" -- "$2" "$root/$3" && made=("file $3" "${made[@]}")
}

# point TO NAME: a link to a file, from NAME's folder
point() {
  folders "${2%/*}" && ln -sfn -- "$1" "$root/$2" && made=("file $2" "${made[@]}")
}

put_program() {
  put 755 "$program" bin/ipg && put 755 "$top/ipg-open" bin/ipg-open && put_studio &&
    put 644 "$top/docs/ipg.1" share/man/man1/ipg.1 && put 644 "$top/docs/ipg-open.1" share/man/man1/ipg-open.1 &&
    put 644 "$top/editors/completions/ipg.bash" share/bash-completion/completions/ipg &&
    put 644 "$top/editors/completions/ipg-open.bash" share/bash-completion/completions/ipg-open &&
    put 644 "$top/editors/completions/_ipg" share/zsh/site-functions/_ipg &&
    put 644 "$top/editors/completions/_ipg-open" share/zsh/site-functions/_ipg-open &&
    put 644 "$top/LICENSE-MIT" share/licenses/ipg/LICENSE-MIT && put 644 "$top/LICENSE-APACHE" share/licenses/ipg/LICENSE-APACHE &&
    put 644 "$top/NOTICE" share/licenses/ipg/NOTICE
}

# the page in which grammars are written beside files
put_studio() {
  put 755 "$top/ipg-studio" bin/ipg-studio && put 644 "$top/dist/studio.html" share/ipg/studio.html &&
    put 644 "$top/docs/ipg-studio.1" share/man/man1/ipg-studio.1 &&
    put 644 "$top/editors/completions/ipg-studio.bash" share/bash-completion/completions/ipg-studio &&
    put 644 "$top/editors/completions/_ipg-studio" share/zsh/site-functions/_ipg-studio
}

put_library() {
  local version
  read -r _ version < <("$program" version)
  folders lib/pkgconfig && put 755 "$top/dist/libipg.so" lib/libipg.so.1 && point libipg.so.1 lib/libipg.so &&
    put 644 "$top/lib/include/ipg.h" include/ipg.h || return 1
  # a space parts words there
  printf '%s\n' "prefix=${prefix// /\\ }" 'libdir=${prefix}/lib' 'includedir=${prefix}/include' '' 'Name: ipg' \
    'Description: Parses files by Interval Parsing Grammars' "Version: $version" \
    'Libs: -L${libdir} -lipg' 'Cflags: -I${includedir}' >"$root/lib/pkgconfig/ipg.pc" && made=("file lib/pkgconfig/ipg.pc" "${made[@]}")
}

# grammars and highlighting
put_shared() {
  local name
  while read -r name; do
    put 644 "$top/$name" "share/ipg/$name" || return 1
  done < <(cd "$top" && find formats editors/* -type f ! -path 'editors/completions/*' ! -name '*.pyc')
}

# where python3 looks below PREFIX: Debian's own has another name for the folder of what isn't Debian's
python_folder() {
  python3 -c 'if True:
    import site, sys
    within = "lib/python%d.%d/" % sys.version_info[:2]
    here = sys.argv[1] + "/" + within + "dist-packages"
    print(within + ("dist-packages" if here in site.getsitepackages() else "site-packages"))' "$prefix"
}

put_python() {
  local folder name
  folder=$(python_folder)/ipg || return 1
  for name in "$top"/lib/python/ipg/*.py; do
    put 644 "$name" "$folder/${name##*/}" || return 1
  done
  point ../../../libipg.so.1 "$folder/libipg.so"
}

# Whether there is what an install runs; a bare machine may lack some of it.
has_tools() {
  local tool
  for tool in awk find install readlink sha256sum sort xargs; do
    command -v "$tool" >/dev/null && continue
    echo "install.sh: there is no $tool" >&2
    return 1
  done
}

# The program is the one built here where it is not older than its sources, else the one that is kept.
install_all() {
  has_tools || return 1
  "$top/ipg" check @gif >/dev/null || return 1
  is_built || program=$top/dist/ipg
  uninstall
  made=()
  [ -d "$root" ] || made=("prefix .")
  install -d -m 755 -- "$root" && folders share/ipg || return 1
  put_program && put_library && put_shared && { [ -z "$python" ] || put_python; }
  local status=$?
  # what failed half way is noted too
  printf '%s\n' "${made[@]}" >"$root/$list" || status=1
  [ "$status" -ne 0 ] || echo "ipg is installed as $prefix/bin/ipg; grammars of formats are in $prefix/share/ipg/formats"
  return "$status"
}

# Takes away an install of the time when there was no list, and its folders where they are empty then; those of the system stay.
uninstall_unlisted() {
  local name
  [ -f "$root/bin/ipg" ] && [ -d "$root/share/ipg" ] || return 0
  rm -rf -- "${root:?}/share/ipg"
  for name in bin/ipg share/man/man1/ipg.1 share/bash-completion/completions/ipg share/zsh/site-functions/_ipg; do
    rm -f -- "$root/$name"
    case $prefix in
      / | /usr | /usr/local) ;;
      *) (cd -- "$root" && rmdir -p --ignore-fail-on-non-empty -- "${name%/*}" 2>/dev/null) ;;
    esac
  done
}

# Takes away what the list has, folders only where nothing else came into them. Compiled Python in our own folder is ours.
uninstall() {
  local kind name noted=()
  [ -f "$root/$list" ] && mapfile -t noted <"$root/$list"
  [ "${#noted[@]}" -gt 0 ] || uninstall_unlisted
  rm -rf -- "${root:?}/share/ipg"
  for name in "${noted[@]}"; do
    kind=${name%% *} name=${name#* }
    case $kind:$name in
      file:*) rm -f -- "$root/$name" ;;
      folder:*-packages/ipg) rm -rf -- "${root:?}/$name" ;;
      prefix:*) rmdir --ignore-fail-on-non-empty -- "$root" ;;
      folder:*) [ ! -d "$root/$name" ] || rmdir --ignore-fail-on-non-empty -- "$root/$name" ;;
    esac
  done
}

python='' what=install_all
case ${1-} in
  uninstall) what=uninstall && shift ;;
  --python) python=yes && shift ;;
esac
case ${1-} in -*) usage ;; esac
[ "$#" -le 1 ] || usage
prefix=${1:-/usr/local}
[ "$prefix" = / ] || prefix=${prefix%/}
[[ $prefix = /* ]] || prefix=$PWD/$prefix
root=${DESTDIR-}$prefix
"$what"

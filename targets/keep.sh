# shellcheck shell=bash disable=SC2154
# For `prove`: has the toolchain's clang leave a copy of the module that it compiles.

# keep_modules FOLDER: puts a kit of links first in PATH, whose clang writes FOLDER/module.bc and goes on. `rt` finds its kit by its own
# place, so it and its library are copied; what it has kept on this machine lies beside its kit.
keep_modules() {
  local made=$1 kit part
  kit=$(dirname -- "$(rt doc)") || return 1
  mkdir -p "$made/kit/bin" "$made/kit/toolchain/bin"
  for part in "$kit"/* "$kit"/bin/* "$kit"/toolchain/* "$kit"/toolchain/bin/*; do
    [ -e "$made/kit/${part#"$kit"/}" ] || ln -s -- "$part" "$made/kit/${part#"$kit"/}" || return 1
  done
  [ ! -d "${kit%/*}/rattle-kept" ] || ln -s -- "${kit%/*}/rattle-kept" "$made/rattle-kept" || return 1
  rm -- "$made"/kit/bin/rt "$made"/kit/bin/rtlib.py "$made/kit/toolchain/bin/clang"
  cp -- "$kit/bin/rt" "$kit/bin/rtlib.py" "$made/kit/bin/"
  printf '#!/usr/bin/env bash\n[[ " $* " != *" module.bc "* ]] || cp -- module.bc %q || exit 1\nexec %q "$@"\n' \
    "$made/module.bc" "$kit/toolchain/bin/clang" >"$made/kit/toolchain/bin/clang"
  chmod +x "$made/kit/toolchain/bin/clang"
  kept_in=$made
  PATH="$made/kit/bin:$PATH"
}

# take_module NAME: packs the module that was compiled last as NAME.bc.xz
take_module() {
  xz -9e -T1 -c -- "$kept_in/module.bc" >"$kept_in/$1.bc.xz" && rm -- "$kept_in/module.bc"
}

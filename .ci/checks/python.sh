#!/usr/bin/env bash
# The package for Python from its wheel, in an environment of its own: what it says of trees, errors and formats, the examples of its page,
# the examples of lib/examples, and its types.
set -u
top="$(readlink -f "$(dirname "$0")/../..")"
cd "$top" || exit 1
. .ci/skips.sh
unset IPG_LIBRARY PYTHONPATH
python=
for one in python3 /usr/bin/python3; do
  "$one" -c 'import pip, venv' 2>/dev/null && python=$one && break
done
[ -n "$python" ] || {
  skip python "python3 with pip and venv"
  exit 0
}
folder=$(mktemp -d) || exit 1
trap 'rm -rf "$folder"' EXIT
failed=0

# says WHAT COMMAND..: runs a command, and says whether it did
says() {
  local what=$1
  shift
  if "$@" >"$folder/said" 2>&1; then echo "python: $what"; else
    cat "$folder/said"
    echo "python: failed: $what"
    failed=1
  fi
}

# a copy, so that nothing is built in the checkout; the library is the one that was built here, where it is
mkdir "$folder/copy" && cp -r LICENSE-* NOTICE formats lib dist "$folder/copy" || exit 1
if [ -f lib/out/libipg.so ]; then cp lib/out/libipg.so "$folder/copy/dist/libipg.so"; fi
says "a wheel" "$python" -m pip wheel -q --no-index --no-deps --disable-pip-version-check -w "$folder" "$folder/copy/lib/python"
"$python" -m venv --without-pip "$folder/env" || exit 1
packages=$("$folder/env/bin/python" -c 'import sysconfig; print(sysconfig.get_path("purelib"))')
says "its installation" "$python" -m pip install -q --no-index --no-deps --disable-pip-version-check --target "$packages" "$folder"/ipg-*.whl
rm -rf "$folder/copy"
mkdir "$folder/samples" "$folder/work" && "$python" -B formats/samples.py "$folder/samples" || exit 1

# what is run stands outside the checkout, and sees what is installed alone
run() {
  (cd "$folder/work" && "$folder/env/bin/python" -I "$@")
}
says "the package that is installed" run "$top/.ci/library.py" "$folder/samples"
says "the examples of its page" run -c 'import doctest, sys, ipg; told = doctest.testmod(ipg); sys.exit(told.failed or told.attempted < 20)'
says "a file of a known format" test "$(run -m ipg "$folder/samples/png" | head -n 1)" = png.ipg
says "its version is the program's" test "$(run -m ipg version)" = "$(dist/ipg version)"
says "and its wheel's" run -c 'import importlib.metadata, ipg, sys; sys.exit(importlib.metadata.version("ipg") != ipg.__version__)'

# packet k of this capture has k % 49 bytes behind 28 of heads, all from one host to another
python3 bench/files.py pcap 500 >"$folder/capture"
due=$(python3 -c 'print("500 packets\n10.0.0.1 {0} 0\n10.0.0.2 0 {0}".format(sum(28 + k % 49 for k in range(500))))')
says "the bytes of each host, by the example" test "$(run "$top/lib/examples/flows.py" "$folder/capture")" = "$due"
says "the lengths of packets, by the example" test "$(run "$top/lib/examples/capture.py" "$folder/capture" | sed -n 2p)" = "42 11"
due=$(cd "$folder/samples" && find . -type f ! -name png | sed 's/^/1 /' | sort)
got=$(cd "$folder/samples" && "$folder/env/bin/python" -I "$top/lib/examples/corpus.py" png . | cut -d ' ' -f 1,2 | sort)
says "a corpus on all processors, by the example" test "$(grep -v '^0 ./png$' <<<"$got")" = "$due" -a "$(grep -c '^0 ./png$' <<<"$got")" = 1
if command -v readelf >/dev/null; then
  readelf -SW dist/ipg | sed -n 's/^ *\[ *\([0-9]*\)\] \(.*\)/\1 \2/p' | awk '{ if ($1 == 0) print $1, "0", "0"; else print $1, $5, $6 }' |
    while read -r number offset size; do printf '%d %d %d\n' "$number" "0x$offset" "0x$size"; done >"$folder/due"
  run "$top/lib/examples/sections.py" "$top/dist/ipg" >"$folder/got"
  says "the sections of an ELF file, by the example, as readelf has them" cmp "$folder/due" "$folder/got"
else
  skip python-readelf readelf
fi
numpy=
for one in python3 /usr/bin/python3; do
  "$one" -c 'import numpy' 2>/dev/null && numpy=$one && break
done
if [ -n "$numpy" ]; then
  says "rows by numpy" env PYTHONPATH="$packages" "$numpy" -B .ci/library.py
else
  skip python-numpy "numpy"
fi
if command -v mypy >/dev/null; then
  says "its types, by mypy --strict" mypy --strict --cache-dir "$folder/cache" lib/python/ipg lib/python/backend
else
  skip python-types mypy
fi
if command -v ruff >/dev/null; then
  says "ruff" ruff check --no-cache --config lib/python/pyproject.toml lib/python
else
  echo "python: no ruff, so what it would say isn't known"
fi
exit "$failed"

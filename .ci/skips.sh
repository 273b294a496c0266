# shellcheck shell=bash
# For the checks: says that one is left out, and for want of what. The gate counts these names, each once.
skip() {
  echo "$1: skipped, for want of $2"
  [ -z "${CI_SKIPS-}" ] || grep -qxF -- "$1" "$CI_SKIPS" 2>/dev/null || echo "$1" >>"$CI_SKIPS"
}

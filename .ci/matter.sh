# shellcheck shell=bash
# For .ci/long and its check: the sum of what a long check is about.
sum_of_matter() {
  local paths
  read -ra paths < <(sed -n 's/^# matter: //p' ".ci/long.d/$1.sh")
  find ".ci/long.d/$1.sh" "${paths[@]}" -type f ! -path '*/out/*' ! -name '*.pyc' -print0 | LC_ALL=C sort -z | xargs -0 sha256sum | sha256sum | cut -c1-16
}

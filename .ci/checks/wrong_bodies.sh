#!/usr/bin/env bash
# Wrong bodies of each public crate, each tried on the one function that it changes: the prover must refuse it. What was refused is kept and not
# tried again where nothing below changed. From nothing that takes longer than a gate may, so after ten minutes none is begun, and how many
# weren't reached is said; `.ci/long wrong_bodies` tries all.
set -u
cd "$(dirname "$0")/../.." || exit 1
bash .ci/long.d/wrong_bodies.sh --minutes 10

#!/usr/bin/env bash
# Builds the product and the twin and compares them.
#
#     compare.sh [SEED [CASES]]
set -eu

twin=$(cd "$(dirname "${BASH_SOURCE[0]}")" && pwd)
root=$(dirname "$twin")

(cd "$root/crates/c_bench" && rt lib)
(cd "$root/crates/bench" && rt run </dev/null >/dev/null)

export DUTY_LIB_DIR="$root/crates/c_bench/out"
export DUTY_BENCH="$root/crates/bench/out/bench"
(cd "$twin" && cargo build --release --offline)
exec "$twin/target/release/compare" "$@"

#!/usr/bin/env bash
# How long a host's cache takes for rounds over many lines: builds the crate fam_cache_bench and times it.
#
# Three rounds over 100,000 lines in order, each line made absent and then loaded ten times: 300,000 invalidations
# and 3,000,000 loads. Measured on one x86-64 processor at about 2.5 GHz: 0.02 s of processor time in all, so about 6 ns
# a load, and the same for each round. The wanted bound was 0.5 s for a million loads a round.
set -eu
cd "$(dirname "$0")/../crates/fam_cache_bench"
rt run
time out/fam_cache_bench

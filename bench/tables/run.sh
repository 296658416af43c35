#!/usr/bin/env bash
# Times reading, and toml's share in it, put, delete, limit and sum of tables of 1e3, 1e5 and 1e6 rows: the program of this folder, as LLVM builds it,
# in a copy of the crates that it stands on. The copy is thrown away.
set -eu
source "$(dirname "$0")/../in_a_copy.sh"
in_a_copy tables 'input_tables toml'
"${RT:-rt}" run

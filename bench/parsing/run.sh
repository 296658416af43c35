#!/usr/bin/env bash
# Times reading, printing and defining of program texts of 64 KiB, 256 KiB and 1 MiB, in nanoseconds a byte: the program of this
# folder, as LLVM builds it, in a copy of the crates that it stands on. The copy is thrown away.
set -eu
source "$(dirname "$0")/../in_a_copy.sh"
in_a_copy parsing 'procedure_parser program_printer meaning'
"${RT:-rt}" run

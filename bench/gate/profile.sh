#!/usr/bin/env bash
# Runs the whole gate, and prints what each crate's proof, tests and must-fail edits took of processor time, as a table
# for docs/MEASUREMENTS.md, and when each began and ended.
set -eu
exec python3 "$(dirname "$0")/profile.py"

#!/usr/bin/env bash
# Tries random sessions on the built program for so many seconds, and stops at the first in which something is wrong: README.md says
# what. That session is made smaller where this is easy and kept in out/fuzz, and it is said how to run it again. A part is loops,
# reports, texts or limits, all in turn where none is named. Cases are numbered, from S on: with 0 seconds there is one of each part.
# A session hangs where it takes more than LIMIT seconds, by default 10; a build with run-time checks takes some hundred times longer.
#
# usage: run.sh [--seconds N] [--program FILE] [--against FILE] [--seed S] [--part NAME]
#        by default 60 seconds from case 1 on, and ./cilkreport as it is built
set -eu
exec python3 "$(dirname "$0")/fuzz.py" "$@"

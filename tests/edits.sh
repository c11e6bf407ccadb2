#!/usr/bin/env bash
# Tries the edits of the crates: tests/edits.py says how, and what it takes.
exec python3 "$(dirname "$0")/edits.py" "$@"

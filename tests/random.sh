#!/usr/bin/env bash
# Compares the program with the model on inputs made at random, one for each seed:
# tests/random.sh [--program FILE] [FIRST [COUNT]]. A seed makes the same input each time.
set -eu
cd "$(dirname "$0")/.."
PYTHONPATH=tests exec python3 -m model.compare "$@"

#!/usr/bin/env bash
# Builds the playground into out/playground/page, and opens it in chromium. tests/playground/main.py
# compares what it shows.
#
#   tests/playground.sh [--pictures FOLDER]
#
# `rust/playground/build.sh` names the packages that it needs besides chromium.
set -euo pipefail

root=$(cd "$(dirname "${BASH_SOURCE[0]}")/.." && pwd)
export PYTHONDONTWRITEBYTECODE=1
bash "$root/rust/playground/build.sh" "$root/out/playground/page"
exec python3 "$root/tests/playground/main.py" "$root/out/playground/page" "$@"

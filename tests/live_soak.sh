#!/usr/bin/env bash
# Some minutes of `jobd serve` with 100 jobs of all kinds, loaded and unloaded at random. It is run by hand, after
# `make build`: live_soak.sh [MINUTES [JOBD JOBCTL]], with 10 minutes, build/jobd and build/jobctl.
set -euo pipefail
exec python3 "$(dirname "$0")/live_soak.py" "${1:-10}" "$(realpath -s "${2:-build/jobd}")" "$(realpath -s "${3:-build/jobctl}")"

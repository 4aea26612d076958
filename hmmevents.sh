#!/usr/bin/env bash
# Runs the program hmmevents as hmmrun.sh runs hmmrun: see there.
exec "$(dirname "$(realpath "${BASH_SOURCE[0]}")")/hmmrun.sh" --program hmmevents "$@"

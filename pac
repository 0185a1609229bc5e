#!/usr/bin/env bash
# Runs the proved program `pac` with the words given, as tools/build.sh says.
. "$(dirname "$(readlink -f "${BASH_SOURCE[0]}")")/tools/build.sh" pac || exit 125
run_proved "$@"

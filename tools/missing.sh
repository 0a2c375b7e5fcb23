#!/usr/bin/env bash
# Proves and builds `missing_report`, and prints what is missing from a capture: tools/missing.sh CAPTURE
CALLED_AS=tools/missing.sh exec "$(dirname "$0")/proved_program.sh" missing_report "$@"

#!/usr/bin/env bash
# Proves and builds `capture_report`, and prints the report of a capture: tools/report.sh CAPTURE
CALLED_AS=tools/report.sh exec "$(dirname "$0")/proved_program.sh" capture_report "$@"

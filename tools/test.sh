#!/bin/sh
# Tests the tools of this folder with python3, and compares docs/AUDIT.md with what is counted. Where numpy
# isn't there, what needs it is skipped.
cd "$(dirname "$0")" || exit 1
python3 -B -m unittest && python3 -B audit_lines.py

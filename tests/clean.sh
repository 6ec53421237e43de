#!/bin/sh
# Runs a command for what its sanitizers find: one test, passed where the command ends well.
if "$@"; then echo '1 passed, 0 failed'; else echo '0 passed, 1 failed'; exit 1; fi

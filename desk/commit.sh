#!/bin/sh
# Tells the commit of the tree in whose top folder this is run, with a mark where the tree was changed since; unknown
# where it is no tree of git, or a folder within another.
if prefix=$(git rev-parse --show-prefix 2>/dev/null) && [ -z "$prefix" ] &&
    commit=$(git rev-parse --verify -q HEAD 2>/dev/null); then
    changed=$(git --no-optional-locks status --porcelain 2>/dev/null)
    echo "$commit${changed:+ with changes that no commit has}"
else
    echo unknown
fi

#!/bin/sh
# Compiles what includes galhoveia.h by the system's compilers, every warning an error: header.sh CC CXX.
passed=0
failed=0
strict='-Wall -Wextra -pedantic -Werror -fsyntax-only'

compiles() {
    if "$@"; then passed=$((passed + 1)); else failed=$((failed + 1)); echo "FAILED $*"; fi
}

# shellcheck disable=SC2086
for standard in c11 c17; do
    compiles "$1" -std=$standard $strict tests/header.c
done
# shellcheck disable=SC2086
for standard in c++11 c++17 c++20; do
    compiles "$2" -std=$standard $strict tests/header-cpp.cpp
done
echo "$passed passed, $failed failed"
[ "$failed" = 0 ]

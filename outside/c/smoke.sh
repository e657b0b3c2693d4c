#!/usr/bin/env bash
# Builds the C caller against libarchive.a and runs it. The archive is taken
# from ARCHIVE_DIR, or else from target/staticlib of the repository.
set -euo pipefail

here=$(cd "$(dirname "$0")" && pwd)
archive=${ARCHIVE_DIR:-$here/../../target/staticlib}/libarchive.a
work=$(mktemp -d)
trap 'rm -rf "$work"' EXIT

${CC:-cc} -std=c11 -Wall -Wextra -Werror -I "$here/../../include" "$here/smoke.c" "$archive" -o "$work/smoke"
"$work/smoke"

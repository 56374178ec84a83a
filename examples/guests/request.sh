#!/usr/bin/env bash
# Writes the `request` line of a play file for a request without a body:
#     examples/guests/request.sh GET /page 'host: x' 'x-fail: 1'
set -eu
[ $# -ge 2 ] || { echo "usage: examples/guests/request.sh METHOD TARGET ['NAME: VALUE'] .." >&2; exit 2; }
{
    printf '%s %s HTTP/1.1\r\n' "$1" "$2"
    shift 2
    for header in "$@"; do
        printf '%s\r\n' "$header"
    done
    printf '\r\n'
} | od -An -v -tx1 | tr -d ' \n' | sed 's/^/request /; s/$/\n/'

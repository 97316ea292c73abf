#!/bin/sh
# Prints information pages as text: ./hip FILE... (without a file, or for the file `-`, standard input).
root=$(CDPATH='' cd -- "$(dirname -- "$0")" && pwd) || exit
name=hip
. "$root/build-and-run"

#!/bin/sh
# Installs the programs of this archive, with their pages, kits, and examples.
#
# usage: ./install.sh [PREFIX]
#
# The programs come into PREFIX/bin, and all else below PREFIX/share. The default is /usr/local.
set -eu
case ${1:-} in -*) sed -n '2,/^set/s/^# \{0,1\}//p' "$0"; exit 2 ;; esac
prefix=${1:-/usr/local}
mkdir -p "$prefix"
prefix=$(cd "$prefix" && pwd)
cd "$(dirname "$0")"
cp -R bin share "$prefix"
echo "The programs are in $prefix/bin. The pages begin with $prefix/share/doc/toolbus/README.md."

#!/bin/sh
# A display: shows on its standard error what it is asked to show.
while read -r line; do
  case $line in
    'rec-do('*) echo "$line" >&2 ;;
    'rec-terminate('*) exit 0 ;;
  esac
done

#!/bin/sh
# The tool of far.py. Its parent process is the server's end of the connection, and rec-eval(break) ends this process.
while read -r line; do
  case $line in
    'rec-eval(twice('*) n=${line#'rec-eval(twice('}; n=${n%'))'}; echo "snd-value($((2 * n)))" ;;
    'rec-eval(break)') kill "$PPID" ;;
    'rec-terminate('*) echo 'the tool has ended' >&2; exit 0 ;;
  esac
done

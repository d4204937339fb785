#!/bin/sh
# A tool that answers `ping`, and nothing else.
while read -r line; do
  case $line in
    'rec-eval(ping)') echo 'snd-value(pong)' ;;
    'rec-terminate('*) exit 0 ;;
  esac
done

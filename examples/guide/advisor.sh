#!/bin/sh
# An advisor: below 20 degrees the heater must be on.
while read -r line; do
  case $line in
    'rec-eval(advise('*)
      degrees=${line#'rec-eval(advise('}
      degrees=${degrees%'))'}
      if [ "$degrees" -lt 20 ]; then echo 'snd-value(on)'; else echo 'snd-value(off)'; fi ;;
    'rec-terminate('*)
      exit 0 ;;
  esac
done

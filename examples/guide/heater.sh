#!/bin/sh
# A heater: says on its standard error when it is switched.
now=off
while read -r line; do
  case $line in
    'rec-do(switch('*)
      next=${line#'rec-do(switch('}
      next=${next%'))'}
      if [ "$next" != "$now" ]; then echo "the heater is $next" >&2; fi
      now=$next ;;
    'rec-terminate('*)
      exit 0 ;;
  esac
done

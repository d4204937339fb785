#!/bin/sh
# Squares the numbers that it is asked about.
while read -r line; do
  case $line in
    'rec-eval('*) n=${line#'rec-eval('}; n=${n%')'}; echo "snd-value($((n * n)))" ;;
    'rec-terminate('*) exit 0 ;;
  esac
done

#!/bin/sh
# The calculator's tool: two buttons are pressed, what it is asked it works out, and then it quits.
echo 'snd-event(button(plus(1,2)))'
while read -r line; do
  case $line in
    'rec-eval(plus('*)
      sum=${line#'rec-eval(plus('}
      sum=${sum%'))'}
      echo "snd-value($((${sum%,*} + ${sum#*,})))" ;;
    'rec-ack-event(button(plus(1,2)))')
      echo 'snd-event(button(plus(20,22)))' ;;
    'rec-ack-event('*)
      echo 'snd-event(quit)' ;;
    'rec-terminate('*)
      exit 0 ;;
  esac
done

#!/bin/sh
# A reader: looks up one word after the other, and says on standard error what it is shown.
set -- bus gerbil
look_up() {
  if [ $# -gt 0 ]; then echo "snd-event(look-up(\"$1\"))"; else echo 'snd-event(enough)'; fi
}
look_up "$@"
while read -r line; do
  case $line in
    'rec-do(show('*) echo "$line" >&2 ;;
    'rec-ack-event('*) shift; look_up "$@" ;;
    'rec-terminate('*) exit 0 ;;
  esac
done

#!/bin/sh
# A control tool: it sends each word that is written to the pipe `control` as an event.
while read -r word; do echo "snd-event($word)"; done <> control &
while read -r line; do
  case $line in 'rec-terminate('*) break ;; esac
done
kill $!

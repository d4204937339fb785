#!/bin/sh
# A tool that doesn't last: it answers one question, and ends a second later.
read -r line
case $line in 'rec-terminate('*) exit 0 ;; esac
echo 'snd-value(ok)'
sleep 1

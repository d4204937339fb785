#!/bin/sh
# Quotes a string with each of the characters below 32 in turn.
. "$(dirname "$0")/../sh/toolbus.sh"

number=0
while [ "$((number += 1))" -lt 32 ]; do
  # shellcheck disable=SC2059 # an escape by its number
  string=$(printf "a\\$(printf %03o "$number")b")
  tb_say "$number $(tb_quote "$string" || echo refused)"
done

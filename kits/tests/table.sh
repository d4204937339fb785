#!/bin/sh
# Reads the texts of terms, a line each. Says of a string its bytes in hexadecimal and its text again, of a name with arguments or a
# list its name and its parts, with commas between that have a tab on either side.
. "$(dirname "$0")/../sh/toolbus.sh"

bytes_of() { printf %s "$1" | od -An -v -tx1 | tr -d ' \n'; }

while IFS= read -r text <&3; do
  if tb_unquote "$text"; then
    tb_say "$(bytes_of "$tb_string")	$(tb_quote "$tb_string")"
  elif tb_split "$text"; then
    tb_say "$tb_name	$(printf %s "$tb_parts" | tr '\n' '\t')"
  else
    tb_say "$text"
  fi
done

# shellcheck shell=sh disable=SC2034,SC2295 # the tool uses the results; variables hold patterns
# A kit for tools of the ToolBus, in POSIX sh: lines, strings, and an event loop. A tool sources it:
#
#     #!/bin/sh
#     . "$(dirname "$0")/toolbus.sh"
#     eval_plus() { tb_value "$(($1 + $2))"; }
#     on_eval() { tb_value unknown; }
#     tb_run
#
# A term is its text. The tool defines functions as handlers. All of them are optional.
#
#     eval_NAME ARG..           for rec-eval(NAME(ARG,..)). The function's name has _ for each - in NAME.
#     on_eval TERM              for every other rec-eval. Each handler of rec-eval calls tb_value once.
#     do_NAME ARG..             for rec-do(NAME(ARG,..))
#     on_do TERM                for every other rec-do
#     ack_event_NAME ARG..      for rec-ack-event(NAME(ARG,..),TERM,..). The other terms follow the arguments.
#     on_ack_event TERM..       for every other rec-ack-event
#     on_terminate TERM         for rec-terminate. The kit calls it before the loop ends.
#
# The kit moves the bus to the file descriptors 3 and 4. So a tool that prints writes to the standard error, and its standard input
# is empty. If the tool leaves a program in the background, it must start this program with 4>&-. Else the program keeps the lane up.

exec 3<&0 4>&1 </dev/null 1>&2

tb_newline='
'
tb_return=$(printf '\r')
tb_tab=$(printf '\t')
tb_in_quotes="[\"\\\\$tb_newline$tb_return$tb_tab]"
tb_no_string="[$(printf '\001\002\003\004\005\006\007\010\013\014\016\017\020\021\022\023\024\025\026\027\030\031\032\033\034\035\036\037')]"
tb_mark='[][(),"]'
tb_quote_mark='["\\]'

# Lines to the bus. The kit doesn't check that a text is a term.

tb_say() { printf '%s\n' "$1" >&4; }

tb_value() { tb_say "snd-value($1)"; }

# Sends snd-event with each argument as a term.
tb_event() {
  tb_terms=$1
  shift
  for tb_term; do tb_terms=$tb_terms,$tb_term; done
  tb_say "snd-event($tb_terms)"
}

# Sends snd-connect. If --connect started the tool, this line must come first.
tb_connect() { tb_say "snd-connect($1)"; }

# Sends snd-disconnect. Then the bus closes the tool's input, and the loop ends.
tb_disconnect() { tb_say snd-disconnect; }

# Writes a line to the standard error.
tb_log() { printf '%s: %s\n' "${0##*/}" "$*" >&2; }

# Terms

# Prints the text of the string $1. Fails if $1 has a control character that no string of a term can have.
tb_quote() {
  # shellcheck disable=SC2254 # a pattern
  case $1 in *$tb_no_string*) return 1 ;; esac
  tb_left=$1
  tb_quoted=
  while :; do
    tb_plain=${tb_left%%$tb_in_quotes*}
    tb_quoted=$tb_quoted$tb_plain
    tb_left=${tb_left#"$tb_plain"}
    case $tb_left in
      '') break ;;
      "$tb_newline"*) tb_quoted=$tb_quoted\\n ;;
      "$tb_return"*) tb_quoted=$tb_quoted\\r ;;
      "$tb_tab"*) tb_quoted=$tb_quoted\\t ;;
      \"*) tb_quoted=$tb_quoted\\\" ;;
      *) tb_quoted=$tb_quoted\\\\ ;;
    esac
    tb_left=${tb_left#?}
  done
  printf '"%s"' "$tb_quoted"
}

# Sets tb_string to the string with the text $1, as the bus writes it. Fails if $1 isn't the text of a string.
tb_unquote() {
  case $1 in \"*\") tb_left=${1#?} ;; *) return 1 ;; esac
  tb_left=${tb_left%?}
  tb_string=
  while :; do
    tb_plain=${tb_left%%\\*}
    tb_string=$tb_string$tb_plain
    tb_left=${tb_left#"$tb_plain"}
    case $tb_left in
      '') break ;;
      \\n*) tb_string=$tb_string$tb_newline ;;
      \\r*) tb_string=$tb_string$tb_return ;;
      \\t*) tb_string=$tb_string$tb_tab ;;
      \\\"*) tb_string=$tb_string\" ;;
      *) tb_string=$tb_string\\ ;;
    esac
    tb_left=${tb_left#??}
  done
}

# Moves a string in quotes from the start of tb_left to the end of tb_part.
tb_move_string() {
  tb_part=$tb_part\"
  tb_left=${tb_left#?}
  while :; do
    tb_plain=${tb_left%%$tb_quote_mark*}
    tb_part=$tb_part$tb_plain
    tb_left=${tb_left#"$tb_plain"}
    case $tb_left in
      \\*)
        tb_plain=${tb_left#??}
        tb_part=$tb_part${tb_left%"$tb_plain"}
        tb_left=$tb_plain ;;
      *)
        tb_part=$tb_part\"
        tb_left=${tb_left#?}
        return ;;
    esac
  done
}

# Sets tb_parts to the terms in $1, which commas separate. Each term is one line.
tb_split_terms() {
  tb_left=$1
  tb_parts=
  tb_part=
  tb_depth=0
  while [ -n "$tb_left" ]; do
    tb_plain=${tb_left%%$tb_mark*}
    tb_part=$tb_part$tb_plain
    tb_left=${tb_left#"$tb_plain"}
    case $tb_left in
      '') break ;;
      \"*) tb_move_string; continue ;;
      ,*) if [ "$tb_depth" -eq 0 ]; then tb_parts=$tb_parts$tb_part$tb_newline; tb_part=; else tb_part=$tb_part,; fi ;;
      \(*) tb_part=$tb_part\(; tb_depth=$((tb_depth + 1)) ;;
      \[*) tb_part=$tb_part\[; tb_depth=$((tb_depth + 1)) ;;
      \)*) tb_part=$tb_part\); tb_depth=$((tb_depth - 1)) ;;
      \]*) tb_part=$tb_part\]; tb_depth=$((tb_depth - 1)) ;;
    esac
    tb_left=${tb_left#?}
  done
  tb_parts=$tb_parts$tb_part
}

# Sets tb_name to the name of the term $1, as the bus writes it, and tb_parts to its arguments. Each argument is one line. If the
# term is a list, the name is empty, and the parts are the members. Fails if the term is a number or a string.
tb_split() {
  tb_name=
  tb_parts=
  case $1 in
    [a-z]*\)) tb_name=${1%%\(*}; tb_left=${1#*\(} ;;
    [a-z]*) tb_name=$1; return 0 ;;
    \[*) tb_left=${1#?} ;;
    *) return 1 ;;
  esac
  tb_split_terms "${tb_left%?}"
}

# The event loop

# Sets tb_function to the handler of the word $1 for the terms $2. If the tool has none, sets it to the empty string.
tb_find() {
  case $2 in
    [a-z]*)
      tb_function=$1-${2%%[(,)]*}
      while [ "$tb_function" != "${tb_function%%-*}" ]; do tb_function=${tb_function%%-*}_${tb_function#*-}; done
      if command -v "$tb_function" >/dev/null; then return 0; fi ;;
  esac
  tb_function=on_$1
  if ! command -v "$tb_function" >/dev/null; then tb_function=; fi
}

# Calls the function $1. Its arguments are the lines of $2, and then those of $3.
tb_call() {
  tb_function=$1
  tb_ifs=$IFS
  IFS=$tb_newline
  case $- in *f*) tb_globs= ;; *) tb_globs=yes; set -f ;; esac
  # shellcheck disable=SC2086 # the shell splits the lines
  set -- $2 $3
  IFS=$tb_ifs
  [ -z "$tb_globs" ] || set +f
  "$tb_function" "$@"
}

# Calls the handler in tb_function for the terms $1.
tb_dispatch() {
  tb_handler=$tb_function
  case $tb_handler in
    on_ack_event) tb_split_terms "$1"; tb_call "$tb_handler" "$tb_parts" '' ;;
    on_*) "$tb_handler" "$1" ;;
    *)
      tb_split_terms "$1"
      tb_first=${tb_parts%%"$tb_newline"*}
      tb_others=${tb_parts#"$tb_first"}
      tb_split "$tb_first"
      tb_call "$tb_handler" "$tb_parts" "$tb_others" ;;
  esac
}

tb_without_handler() {
  case $1 in
    rec-eval*) tb_log "no handler for $1: define on_eval"; exit 1 ;;
    rec-do*) tb_log "no handler for $1: define on_do" ;;
  esac
}

# Handles the line $1.
tb_handle() {
  case $1 in
    rec-eval\(?*\)) tb_find eval "${1#*\(}" ;;
    rec-do\(?*\)) tb_find 'do' "${1#*\(}" ;;
    rec-ack-event\(?*\)) tb_find ack_event "${1#*\(}" ;;
    rec-terminate\(?*\)) tb_find terminate '' ;;
    *) tb_log "ignored a line that no bus sends: $1"; return 0 ;;
  esac
  tb_terms=${1#*\(}
  if [ -n "$tb_function" ]; then tb_dispatch "${tb_terms%\)}"; else tb_without_handler "$1"; fi
}

# Handles lines until rec-terminate, or until the input ends.
tb_run() {
  while IFS= read -r tb_line <&3 || [ -n "$tb_line" ]; do
    case $tb_line in
      rec-terminate\(?*\)) tb_handle "$tb_line"; return 0 ;;
      *) tb_handle "$tb_line" ;;
    esac
  done
}

#!/bin/sh
# Says what it was told.
. "$(dirname "$0")/../sh/toolbus.sh"

on_eval() { tb_value "$1"; }
eval_look_up() { tb_value "found($1,$2)"; }
eval_status() { tb_value ready; }
on_do() { tb_event "did($1)"; }
do_say() {
  tb_unquote "$1"
  echo "$tb_string"
  tb_event said
}
list() {
  tb_list=$1
  if [ $# -gt 0 ]; then shift; fi
  for tb_member; do tb_list=$tb_list,$tb_member; done
}
on_ack_event() { list "$@"; tb_event "acked([$tb_list])"; }
ack_event_bid() {
  price=$1
  shift
  list "$@"
  tb_event "bid-acked($price,[$tb_list])"
}
on_terminate() { tb_event "ends($1)"; }
tb_run

#!/bin/sh
# The calculator's tool, by the kit for sh.
. ../kits/sh/toolbus.sh

buttons='button(plus(1,2)) button(plus(20,22)) quit'

press() {
  tb_event "${buttons%% *}"
  buttons=${buttons#* }
}

eval_plus() { tb_value "$(($1 + $2))"; }
ack_event_button() { press; }

press
tb_run

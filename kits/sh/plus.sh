#!/bin/sh
# A tool that adds two numbers.
. "$(dirname "$0")/toolbus.sh"
eval_plus() { tb_value "$(($1 + $2))"; }
on_eval() { tb_value unknown; }
tb_run

#!/bin/sh
# An advisor that says its name first.
echo 'snd-connect(advisor)'
exec sh advisor.sh

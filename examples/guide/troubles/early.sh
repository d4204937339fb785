echo 'snd-event(pressed(5))'
echo 'snd-connect(button)'
while read -r line; do
  case $line in 'rec-terminate('*) exit 0 ;; esac
done

echo 'snd-connect(adviser)'
while read -r line; do
  case $line in 'rec-terminate('*) exit 0 ;; esac
done

# A tool that is ready only after three seconds. Then it answers at once.
sleep 3
echo 'snd-event(ready)'
while read -r line; do
  case $line in
    'rec-eval('*) echo 'snd-value(3)' ;;
    'rec-terminate('*) exit 0 ;;
  esac
done

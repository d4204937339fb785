while read -r line; do
  case $line in
    'rec-eval('*) echo 'snd-value(3)'; echo 'snd-value(three)' ;;
    'rec-terminate('*) exit 0 ;;
  esac
done

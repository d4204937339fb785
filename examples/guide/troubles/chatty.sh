while read -r line; do
  case $line in
    'rec-eval('*) echo "I was asked: $line"; echo 'snd-value(3)' ;;
    'rec-terminate('*) exit 0 ;;
  esac
done

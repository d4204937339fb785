while read -r line; do
  case $line in
    'rec-eval('*) printf 'snd-value(3)' ;;
    'rec-terminate('*) exit 0 ;;
  esac
done

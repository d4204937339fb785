# A tool that sends each answer twice, with a pause.
while read -r line; do
  case $line in
    'rec-eval(square('*)
      number=${line#'rec-eval(square('}
      number=${number%'))'}
      echo "snd-value($((number * number)))"
      sleep 1
      echo "snd-value($((number * number)))" ;;
    'rec-terminate('*) exit 0 ;;
  esac
done

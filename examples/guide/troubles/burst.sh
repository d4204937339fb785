# A tool that sends three events and ends.
echo 'snd-event(item(1))'
echo 'snd-event(item(2))'
echo 'snd-event(item(3))'

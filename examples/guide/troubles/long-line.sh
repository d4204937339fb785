# A tool that answers with a line of 70,000 digits, which is over the limit of a line, and then says so.
read -r line
echo "snd-value(\"$(head -c 70000 /dev/zero | tr '\0' 1)\")"
echo 'snd-event(written)'
while read -r line; do :; done

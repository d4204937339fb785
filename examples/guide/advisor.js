// An advisor: below 20 degrees the heater must be on.
const lines = require('readline').createInterface({ input: process.stdin });
lines.on('line', (line) => {
  const question = /^rec-eval\(advise\((-?\d+)\)\)$/.exec(line);
  if (question) console.log(`snd-value(${Number(question[1]) < 20 ? 'on' : 'off'})`);
  if (line.startsWith('rec-terminate(')) process.exit(0);
});
lines.on('close', () => process.exit(0));

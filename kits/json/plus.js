// A tool that adds two numbers, without a kit: filter.py translates its lines.
const lines = require('readline').createInterface({ input: process.stdin });
lines.on('line', (line) => {
  const { 'rec-eval': [question] = [] } = JSON.parse(line);
  if (question === undefined) return;
  const { plus } = question;
  const answer = plus ? plus[0] + plus[1] : { unknown: [] };
  console.log(JSON.stringify({ 'snd-value': [answer] }));
});

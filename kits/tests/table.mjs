// Reads texts, a line each in hexadecimal, and says what each reads as: with the argument `terms` in the words of terms.txt, with
// `lines` in those of to-tool.txt. With `refuse NAME`, sends the wrong line of this name in kits/test.
// With `bare`, is a tool without handlers.
import { readFileSync } from 'node:fs';
import { Appl, TermError, Tool, readLine, readTerm, writeTerm } from '../javascript/toolbus.mjs';

const hexadecimal = (text) => Buffer.from(text).toString('hex');

function termAnswer(bytes) {
  try {
    return `term\t${hexadecimal(writeTerm(readTerm(bytes)))}`;
  } catch (error) {
    if (!(error instanceof TermError)) throw error;
    return `${error.at === undefined ? error.kind : `${error.kind} ${error.at}`}\t`;
  }
}

function lineAnswer(bytes) {
  try {
    const line = readLine(bytes);
    return `${line.word}\t${hexadecimal(String(line))}`;
  } catch (error) {
    if (!(error instanceof TermError)) throw error;
    return 'bad\t';
  }
}

function refuse(wrong) {
  const tool = new Tool();
  let deep = 1;
  for (let level = 1; level < 65; level++) deep = [deep];
  const around = [];
  around.push(around);
  const sends = {
    'longest': () => tool.event('a'.repeat(65_523)),
    'control': () => tool.event('\x01'),
    'unicode': () => tool.event('a\ud800'),
    'upper-name': () => tool.event(new Appl('A')),
    'blank-name': () => tool.event(new Appl('a b')),
    'empty-name': () => tool.event(new Appl('')),
    'newline-name': () => tool.event(new Appl('a\n')),
    'real': () => tool.event(1.5),
    'above': () => tool.event(2n ** 63n),
    'below': () => tool.event(-(2n ** 63n) - 1n),
    'deep': () => tool.value(deep),
    'cycle': () => tool.value(around),
    'long': () => tool.event('a'.repeat(65_524)),
    'large': () => tool.event('a'.repeat(65_536)),
    'connect-upper': () => tool.connect('Ed'),
    'connect-term': () => tool.connect('ed(1)'),
    'none': () => tool.event(),
    'no-term': () => tool.event(null),
    'no-part': () => tool.event([1, undefined]),
  };
  try {
    sends[wrong]();
  } catch (error) {
    process.stderr.write(`${error.kind}\n`);
    process.exitCode = 1;
  }
}

const [, , word, wrong] = process.argv;
if (word === 'refuse') {
  refuse(wrong);
} else if (word === 'bare') {
  new Tool().run();
} else {
  const answer = word === 'lines' ? lineAnswer : termAnswer;
  const texts = readFileSync(0, 'latin1').split('\n').slice(0, -1);
  process.stdout.write(texts.map((text) => `${answer(Buffer.from(text, 'hex'))}\n`).join(''));
}

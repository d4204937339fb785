/**
 * A kit for tools of the ToolBus in JavaScript, for Node: terms, and an event loop.
 *
 *     import { Appl, Tool } from './toolbus.mjs';
 *
 *     const tool = new Tool();
 *     tool.onEval('plus', (a, b) => a + b);
 *     tool.onEval(() => new Appl('unknown'));
 *     tool.run();
 *
 * A term is a JavaScript value:
 *
 *     a number          number, or bigint if Number.isSafeInteger doesn't hold
 *     a string          string
 *     true, false       boolean
 *     a list            array
 *     any other name    new Appl('plus', 1, 2), or new Appl('none') without arguments
 *
 * @typedef {number | bigint | string | boolean | Appl | Array<*>} Term
 */
import { basename } from 'node:path';
import { Console } from 'node:console';

const MOST_SIZE = 65_536;
const MOST_DEPTH = 64;
const MOST_LINE_BYTES = 65_536;
const LEAST_NUMBER = -(2n ** 63n);
const MOST_NUMBER = 2n ** 63n - 1n;
const MOST_DIGITS = 19;
const NAME = /^[a-z][A-Za-z0-9_-]*$/;

/** A name with its arguments: `new Appl('plus', 1, 2)` is the term plus(1,2), and `new Appl('none')` is none. */
export class Appl {
  /**
   * @param {string} name
   * @param {...Term} args
   */
  constructor(name, ...args) {
    this.name = name;
    this.args = args;
  }

  toString() {
    return writeTerm(this);
  }
}

/**
 * An error in the text of a term or of a line, or a value that has no text.
 *
 * `kind` is 'syntax', 'real', 'integer', 'large', 'deep' or 'value'. For the first three, `at` is the byte, counted from 0.
 */
export class TermError extends Error {
  constructor(kind, message, at) {
    super(message);
    this.name = 'TermError';
    this.kind = kind;
    this.at = at;
  }
}

const tooLarge = (size) => new TermError('large', `the term is too large: its size is ${size}, the limit is ${MOST_SIZE}`);
const tooDeep = () => new TermError('deep', `the term is too deep: the limit is ${MOST_DEPTH}`);

// Reading

const ESCAPED = { '"': '"', '\\': '\\', n: '\n', r: '\r', t: '\t' };

/** A list, or a name with arguments, that isn't closed yet. */
class Open {
  constructor(name) {
    this.name = name;
    this.end = name === undefined ? ']' : ')';
    this.parts = [];
  }

  closed() {
    return this.name === undefined ? this.parts : Object.assign(new Appl(this.name), { args: this.parts });
  }
}

/** Reads one term from left to right. It doesn't recurse, because a text can nest deeper than the stack. */
class Reader {
  /** @param {Buffer | string} text */
  constructor(text) {
    this.text = Buffer.from(text).toString('latin1'); // one character for each byte
    this.at = 0;
    this.size = 0;
    this.depth = 0;
  }

  syntaxError(at = this.at) {
    const found = at < this.text.length ? JSON.stringify(this.text[at]) : 'the end of the text';
    return new TermError('syntax', `syntax error at byte ${at}: found ${found}`, at);
  }

  /** Moves past the text that a sticky pattern matches, and returns this text. */
  take(pattern) {
    pattern.lastIndex = this.at;
    const [found] = pattern.exec(this.text);
    this.at += found.length;
    return found;
  }

  /** Skips whitespace, and returns the next character, or undefined at the end. */
  next() {
    this.take(/[\t\n\r ]*/y);
    return this.text[this.at];
  }

  number() {
    const start = this.at;
    const sign = this.take(/-?/y);
    const digits = this.take(/[0-9]*/y);
    if (digits === '') throw this.syntaxError();
    if (/^\.[0-9]/.test(this.text.substr(this.at, 2))) {
      throw new TermError('real', `real number at byte ${start}: a number must be whole`, start);
    }
    const short = digits.replace(/^0+/, '');
    const number = short.length > MOST_DIGITS ? MOST_NUMBER + 1n : BigInt(`${short || 0}`) * (sign ? -1n : 1n);
    if (number < LEAST_NUMBER || number > MOST_NUMBER) {
      const message = `number out of range at byte ${start}: the range is ${LEAST_NUMBER} to ${MOST_NUMBER}`;
      throw new TermError('integer', message, start);
    }
    return Number.isSafeInteger(Number(number)) ? Number(number) : number;
  }

  /** Reads a character of more than one byte. The ranges are those of well-formed UTF-8. */
  wide() {
    const first = this.text.charCodeAt(this.at);
    if (first < 0xc2 || first > 0xf4) throw this.syntaxError();
    const start = this.at++;
    let least = { 0xe0: 0xa0, 0xf0: 0x90 }[first] ?? 0x80;
    let most = { 0xed: 0x9f, 0xf4: 0x8f }[first] ?? 0xbf;
    for (let more = first >= 0xf0 ? 3 : first >= 0xe0 ? 2 : 1; more > 0; more--) {
      const byte = this.text.charCodeAt(this.at);
      if (!(byte >= least && byte <= most)) throw this.syntaxError();
      this.at++;
      [least, most] = [0x80, 0xbf];
    }
    return this.text.slice(start, this.at);
  }

  string() {
    this.at++;
    let bytes = '';
    for (;;) {
      bytes += this.take(/[\t\x20!#-\x5b\x5d-\x7f]*/y);
      const character = this.text[this.at];
      if (character === '"') break;
      if (character === '\\') {
        const meant = ESCAPED[this.text[++this.at]];
        if (meant === undefined) throw this.syntaxError();
        bytes += meant;
        this.at++;
      } else if (character >= '\x80') {
        bytes += this.wide();
      } else {
        throw this.syntaxError();
      }
    }
    this.at++;
    this.size += bytes.length;
    return Buffer.from(bytes, 'latin1').toString('utf8');
  }

  /** Reads a name, and the bracket that begins its arguments. */
  name() {
    const name = this.take(/(?:[a-z][A-Za-z0-9_-]*)?/y);
    if (name === '') throw this.syntaxError();
    this.size += name.length;
    if (this.next() === '(') {
      this.at++;
      return new Open(name);
    }
    return name === 'true' || name === 'false' ? name === 'true' : new Appl(name);
  }

  /** Reads an empty list, or the bracket that begins another list. */
  list() {
    this.at++;
    if (this.next() !== ']') return new Open();
    this.at++;
    return [];
  }

  /** Reads a term without parts, or the beginning of a term with parts. */
  head() {
    const character = this.next();
    this.size++;
    if (character === '"') return this.string();
    if (character === '[') return this.list();
    return character === '-' || (character >= '0' && character <= '9') ? this.number() : this.name();
  }

  /** Adds a term to the innermost open one, and closes all that end behind it. Returns the last term that is closed. */
  close(term, above) {
    while (above.length > 0) {
      const around = above[above.length - 1];
      around.parts.push(term);
      const character = this.next();
      if (character !== ',' && character !== around.end) throw this.syntaxError();
      this.at++;
      if (character === ',') break;
      term = above.pop().closed();
    }
    return term;
  }

  /** Reads the whole text. */
  term() {
    const above = [];
    let term;
    do {
      this.depth = Math.max(this.depth, above.length + 1);
      const head = this.head();
      if (head instanceof Open) above.push(head);
      else term = this.close(head, above);
    } while (above.length > 0);
    if (this.next() !== undefined) throw this.syntaxError();
    return term;
  }
}

/**
 * Returns the term that the text reads as. Throws TermError if the text isn't a term or exceeds a limit.
 *
 * @param {Buffer | string} text
 * @returns {Term}
 */
export function readTerm(text) {
  const reader = new Reader(text);
  const term = reader.term();
  if (reader.size > MOST_SIZE) throw tooLarge(reader.size);
  if (reader.depth > MOST_DEPTH) throw tooDeep();
  return term;
}

// Writing

const NO_STRING = /[\x00-\x08\x0b\x0c\x0e-\x1f]|\p{Surrogate}/u;
const ESCAPES = { '\\': '\\\\', '"': '\\"', '\n': '\\n', '\r': '\\r', '\t': '\\t' };

/** Writes terms, and adds up their size. */
class Writer {
  size = 0;

  number(number) {
    if (typeof number === 'number' && !Number.isSafeInteger(number)) {
      throw new TermError('value', `${number} isn't a safe integer: use a bigint for a large number`);
    }
    if (number < LEAST_NUMBER || number > MOST_NUMBER) {
      throw new TermError('value', `${number} is out of range: the range is ${LEAST_NUMBER} to ${MOST_NUMBER}`);
    }
    return String(number);
  }

  string(string) {
    const wrong = NO_STRING.exec(string);
    if (wrong) throw new TermError('value', `a string can't have the character ${JSON.stringify(wrong[0])}, at index ${wrong.index}`);
    this.size += Buffer.byteLength(string);
    return `"${string.replace(/[\\"\n\r\t]/g, (found) => ESCAPES[found])}"`;
  }

  name(name) {
    if (!NAME.test(name)) {
      throw new TermError('value', `${JSON.stringify(name)} isn't a name: a name is a lower-case letter, then letters, digits, - and _`);
    }
    this.size += name.length;
    return name;
  }

  parts(parts, depth) {
    return parts.map((part) => this.term(part, depth)).join(',');
  }

  /** Returns the text of a term of at most this depth. */
  term(term, depth) {
    if (depth === 0) throw tooDeep();
    this.size++;
    if (typeof term === 'number' || typeof term === 'bigint') return this.number(term);
    if (typeof term === 'string') return this.string(term);
    if (typeof term === 'boolean') return this.name(String(term));
    if (Array.isArray(term)) return `[${this.parts(Array.from(term), depth - 1)}]`;
    if (!(term instanceof Appl)) throw new TermError('value', `${term} isn't a term: use number, bigint, string, boolean, array or Appl`);
    const name = this.name(term.name);
    return term.args.length > 0 ? `${name}(${this.parts(term.args, depth - 1)})` : name;
  }
}

/** Returns the texts of terms that are within the limits together, separated by commas. */
function writeTerms(terms) {
  const writer = new Writer();
  const text = writer.parts(terms, MOST_DEPTH);
  if (writer.size > MOST_SIZE) throw tooLarge(writer.size);
  return text;
}

/**
 * Returns the text of a term. Throws TermError if the value isn't a term or exceeds a limit.
 *
 * @param {Term} term
 * @returns {string}
 */
export function writeTerm(term) {
  return writeTerms([term]);
}

// Lines

/** A line from the bus: its word, as 'rec-eval', and the terms in it. */
export class Line {
  constructor(word, terms) {
    this.word = word;
    this.terms = terms;
  }

  toString() {
    return `${this.word}(${writeTerms(this.terms)})`;
  }
}

/**
 * Returns the line from the bus that a text without a newline is. Throws TermError if the text isn't such a line. The limits apply
 * to the terms in the line, without its word.
 *
 * @param {Buffer | string} text
 */
export function readLine(text) {
  const reader = new Reader(text);
  const term = reader.term();
  const { name: word, args } = term instanceof Appl ? term : new Appl('a term without a name');
  if (!['rec-eval', 'rec-do', 'rec-ack-event', 'rec-terminate'].includes(word)) {
    throw new TermError('value', `the line begins with ${word}`);
  }
  if (args.length === 0 || (args.length > 1 && word !== 'rec-ack-event')) {
    throw new TermError('value', `${word} can't have ${args.length} terms`);
  }
  if (reader.depth - 1 > MOST_DEPTH) throw tooDeep();
  const size = reader.size - 1 - word.length;
  if (size > MOST_SIZE) throw tooLarge(size);
  return new Line(word, args);
}

// The event loop

/** A handler of `onEval` returns this if the tool calls `tool.value` later. A handler can also return a promise. */
export const LATER = Symbol('LATER');

/** The handlers for one word, such as rec-eval. */
class Handlers {
  #named = new Map();
  #general;

  add(name, handler) {
    if (handler === undefined) this.#general = name;
    else this.#named.set(name, handler);
  }

  /** Calls the handler for the name of the first term, else the one for all terms, else `otherwise`. */
  handle([first, ...others], otherwise) {
    const { name, args } = typeof first === 'boolean' ? new Appl(String(first)) : first instanceof Appl ? first : {};
    const handler = this.#named.get(name);
    if (handler) return handler(...args, ...others);
    return this.#general ? this.#general(first, ...others) : otherwise();
  }
}

/**
 * A tool on the bus: handlers for the lines that come in, and calls for the lines that go out.
 *
 * `tool.onEval('plus', handler)` adds a handler for terms with this name, and `tool.onEval(handler)` one for all other terms. The
 * first is called with the arguments of the first term, then the other terms. The second is called with the terms of the line.
 *
 * The standard output belongs to the bus. From `new Tool()` on, `console.log` writes to the standard error.
 */
export class Tool {
  #evals = new Handlers();
  #dos = new Handlers();
  #acks = new Handlers();
  #ends = new Handlers();
  #ended = false;

  constructor() {
    globalThis.console = new Console(process.stderr);
    process.stdout.on('error', () => process.exit(0)); // the bus has closed the tool's output
  }

  /** Adds a handler for rec-eval. The kit sends its result, or that of its promise, as snd-value, unless it is LATER. */
  onEval(name, handler) {
    this.#evals.add(name, handler);
  }

  /** Adds a handler for rec-do. */
  onDo(name, handler) {
    this.#dos.add(name, handler);
  }

  /** Adds a handler for rec-ack-event. Optional. */
  onAckEvent(name, handler) {
    this.#acks.add(name, handler);
  }

  /** Adds a handler for rec-terminate, which the kit calls before the loop ends. Optional. */
  onTerminate(name, handler) {
    this.#ends.add(name, handler);
  }

  /** Sends snd-value, after a handler of `onEval` returned LATER. */
  value(term) {
    this.#send(`snd-value(${writeTerm(term)})`);
  }

  /** Sends snd-event with one term or more. */
  event(...terms) {
    if (terms.length === 0) throw new TermError('value', 'snd-event takes one term or more');
    this.#send(`snd-event(${writeTerms(terms)})`);
  }

  /** Sends snd-connect. If `--connect` started the tool, this line must come first. */
  connect(name) {
    this.#send(`snd-connect(${writeTerm(new Appl(name))})`);
  }

  /** Sends snd-disconnect. Then the bus closes the tool's input, and the loop ends. */
  disconnect() {
    this.#send('snd-disconnect');
    this.#ended = true;
  }

  /** Writes a line to the standard error. */
  log(...values) {
    console.error(`${basename(process.argv[1] ?? 'tool')}:`, ...values);
  }

  #send(line) {
    const length = Buffer.byteLength(line);
    if (length > MOST_LINE_BYTES) throw new TermError('large', `the line is too long: it has ${length} bytes, the limit is ${MOST_LINE_BYTES}`);
    process.stdout.write(`${line}\n`); // Node writes to a pipe at once
  }

  /** Handles lines until rec-terminate, or until the input ends. Resolves to the term of rec-terminate, or to undefined. */
  async run() {
    for await (const text of lines(process.stdin)) {
      if (!this.#ended) this.#receive(text);
      if (this.#ended) break;
    }
    return this.reason;
  }

  #receive(text) {
    let line;
    try {
      line = readLine(text);
    } catch (error) {
      if (!(error instanceof TermError)) throw error;
      this.log(`ignored a line that no bus sends: ${error.message}: ${text}`);
      return;
    }
    this.#handle(line);
  }

  #handle(line) {
    if (line.word === 'rec-eval') {
      this.#answer(line);
    } else if (line.word === 'rec-do') {
      this.#dos.handle(line.terms, () => this.log(`no handler for ${line}: add one by tool.onDo`));
    } else if (line.word === 'rec-ack-event') {
      this.#acks.handle(line.terms, () => {});
    } else {
      this.#ended = true;
      [this.reason] = line.terms;
      this.#ends.handle(line.terms, () => {});
    }
  }

  #answer(line) {
    const answer = this.#evals.handle(line.terms, () => {
      throw new Error(`no handler for ${line}: add one by tool.onEval`);
    });
    if (answer instanceof Promise) answer.then((value) => this.#answered(value));
    else this.#answered(answer);
  }

  #answered(answer) {
    if (answer !== LATER) this.value(answer);
  }
}

/** The lines of a stream, as buffers without their newlines. */
async function* lines(stream) {
  let unended = [];
  for await (const piece of stream) {
    let start = 0;
    for (let end = piece.indexOf(10); end >= 0; end = piece.indexOf(10, start)) {
      yield Buffer.concat([...unended, piece.subarray(start, end)]);
      unended = [];
      start = end + 1;
    }
    unended.push(piece.subarray(start));
  }
  const last = Buffer.concat(unended);
  if (last.length > 0) yield last;
}

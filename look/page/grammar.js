// The grammar of a journal of the second version, byte by byte. Whatever isn't in it is refused at
// its first bad line, with the kind that the program's status names.

export const CALLS = [
  'create', 'add', 'del', 'read', 'clone', 'attach', 'out', 'inout', 'tag', 'drop', 'sub', 'msub',
  'get', 'publish', 'release', 'spawn',
];
/** The call of an emitted entry, which has none. */
export const EMITTED = CALLS.length;

export const REPLIES = [
  'ok', 'handle', 'tag', 'sub', 'unit', 'event', 'parts', 'nothing', 'no unit', 'no handle',
  'no part', 'not draft', 'not received', 'empty event', 'not in managed', 'too many handles',
  'too many parts', 'too many subs', 'too many units', 'too deep', 'exhausted', 'lacks',
  'cannot write',
];
/** How many of the replies are no refusals: those from `ok` to `parts`. */
export const ACCEPTED = 7;

const MOST_NODES = 4096;
const MOST_BYTES = 65536;
const MOST_DEPTH = 32;
const MOST_CLAUSES = 4;
const MOST_NAME = 32;

const LF = 10;
const SPACE = 32;
const QUOTE = 34;
const BACKSLASH = 92;
const code = (character) => character.charCodeAt(0);

/** A file that isn't in form: its first bad line, from 1, and why. */
export class Refused extends Error {
  constructor(line, kind) {
    super(`line ${line}: ${kind}`);
    this.line = line;
    this.kind = kind;
  }
}

const isDigit = (byte) => byte >= 48 && byte <= 57;
const isLetter = (byte) => byte >= 97 && byte <= 122;
const isHexadecimal = (byte) => isDigit(byte) || (byte >= 97 && byte <= 102);

/** Ids for the spellings that were met, so that each is looked at in full once. */
class Spellings {
  constructor(bytes) {
    this.bytes = bytes;
    this.starts = [];
    this.ends = [];
    this.hashes = [];
    this.table = new Int32Array(1024);
  }

  static hash(bytes, from, to) {
    let hash = 2166136261;
    for (let at = from; at < to; at += 1) hash = Math.imul(hash ^ bytes[at], 16777619);
    return hash >>> 0;
  }

  /** The place in the table of this spelling, or where it belongs. */
  slot(hash, from, to) {
    const mask = this.table.length - 1;
    let slot = hash & mask;
    while (this.table[slot] !== 0 && !this.is(this.table[slot] - 1, hash, from, to)) {
      slot = (slot + 1) & mask;
    }
    return slot;
  }

  is(id, hash, from, to) {
    if (this.hashes[id] !== hash || this.ends[id] - this.starts[id] !== to - from) return false;
    for (let k = 0; k < to - from; k += 1) {
      if (this.bytes[this.starts[id] + k] !== this.bytes[from + k]) return false;
    }
    return true;
  }

  /** The id of a spelling, or -1. */
  find(from, to) {
    return this.table[this.slot(Spellings.hash(this.bytes, from, to), from, to)] - 1;
  }

  add(from, to) {
    const hash = Spellings.hash(this.bytes, from, to);
    this.starts.push(from);
    this.ends.push(to);
    this.hashes.push(hash);
    this.table[this.slot(hash, from, to)] = this.starts.length;
    if (this.starts.length * 2 > this.table.length) this.grow();
    return this.starts.length - 1;
  }

  grow() {
    this.table = new Int32Array(this.table.length * 2);
    this.starts.forEach((from, id) => {
      this.table[this.slot(this.hashes[id], from, this.ends[id])] = id + 1;
    });
  }

  texts() {
    const decoder = new TextDecoder();
    return this.starts.map((from, id) => decoder.decode(this.bytes.subarray(from, this.ends[id])));
  }
}

/** Reads the pieces of a journal from `at` on. Each method moves `at` behind what it reads. */
export class Reader {
  constructor(bytes) {
    this.bytes = bytes;
    this.at = 0;
    this.line = 1;
    this.labels = new Spellings(bytes);
    this.units = new Spellings(bytes);
    this.values = new ValueReader(this);
  }

  fail(kind = 'syntax') {
    throw new Refused(this.line, kind);
  }

  peek() {
    return this.bytes[this.at];
  }

  accept(byte) {
    if (this.bytes[this.at] !== byte) return false;
    this.at += 1;
    return true;
  }

  expect(byte) {
    if (!this.accept(byte)) this.fail();
  }

  /** Whether these characters stand here. */
  has(word) {
    for (let k = 0; k < word.length; k += 1) {
      if (this.bytes[this.at + k] !== word.charCodeAt(k)) return false;
    }
    return true;
  }

  expectWord(word) {
    if (!this.has(word)) this.fail();
    this.at += word.length;
  }

  endLine() {
    this.expect(LF);
    this.line += 1;
  }

  /** Digits without a leading zero, at most `most` as a text of that length or less. */
  digits(most) {
    const from = this.at;
    while (isDigit(this.bytes[this.at])) this.at += 1;
    const length = this.at - from;
    const hasZero = length > 1 && this.bytes[from] === 48;
    if (length === 0 || hasZero || length > most.length) this.fail();
    if (length === most.length && this.isAbove(from, most)) this.fail();
    return length;
  }

  isAbove(from, most) {
    for (let k = 0; k < most.length; k += 1) {
      const difference = this.bytes[from + k] - most.charCodeAt(k);
      if (difference !== 0) return difference > 0;
    }
    return false;
  }

  /** A number below 4,294,967,296. */
  number() {
    const from = this.at;
    this.digits('4294967295');
    let value = 0;
    for (let at = from; at < this.at; at += 1) value = value * 10 + this.bytes[at] - 48;
    return value;
  }

  /** A whole number of 64 bits. */
  whole() {
    if (!this.accept(code('-'))) {
      this.digits('9223372036854775807');
      return;
    }
    if (this.peek() === 48) this.fail();
    this.digits('9223372036854775808');
  }

  tag() {
    this.expect(code('#'));
    const numbers = [this.number()];
    while (this.accept(code('.'))) numbers.push(this.number());
    return numbers;
  }

  /** Ascending tags up to the byte that closes them. */
  tags(close) {
    let last = null;
    if (this.accept(close)) return;
    do {
      const next = this.tag();
      if (last !== null && !isBelow(last, next)) this.fail();
      last = next;
    } while (this.accept(code(',')));
    this.expect(close);
  }

  /** A label's id. */
  label() {
    const from = this.at;
    let end = from;
    while (this.bytes[end] > SPACE && this.bytes[end] !== 125) end += 1;
    const id = this.labels.find(from, end + 1);
    if (id >= 0) {
      this.at = end + 1;
      return id;
    }
    this.expect(code('{'));
    this.tags(code('|'));
    this.tags(code('}'));
    return this.labels.add(from, this.at);
  }

  /** A unit's id. */
  unit() {
    const from = this.at;
    let end = from;
    while (this.bytes[end] > SPACE && this.bytes[end] !== 33) end += 1;
    const id = this.units.find(from, end);
    if (id >= 0) {
      this.at = end;
      return id;
    }
    do this.number();
    while (this.accept(code('.')));
    if (this.accept(code('/'))) {
      this.number();
      this.expect(code('{'));
      this.tags(code('}'));
    }
    if (this.at !== end) this.fail();
    return this.units.add(from, end);
  }

  name() {
    const from = this.at;
    if (!isLetter(this.peek())) this.fail();
    while (isLetter(this.peek()) || isDigit(this.peek()) || this.peek() === 95) this.at += 1;
    if (this.at - from > MOST_NAME) this.fail();
  }

  /** One of the four rights, as its place in their order. */
  right() {
    const minus = this.accept(code('-'));
    if (!minus) this.expect(code('+'));
    if (!this.has('auth')) return minus ? 1 : 0;
    this.at += 4;
    return minus ? 3 : 2;
  }

  privilege() {
    const tag = this.tag();
    return { tag, right: this.right() };
  }

  /** A space and a privilege, again and again, ascending. */
  privileges() {
    let last = null;
    while (this.peek() === SPACE && this.bytes[this.at + 1] === 35) {
      this.at += 1;
      const next = this.privilege();
      if (last !== null && !isPrivilegeBelow(last, next)) this.fail();
      last = next;
    }
  }

  /** One character of words, whole; its first byte is at `at`. */
  character() {
    const byte = this.peek();
    if (byte === BACKSLASH) this.escape();
    else if (byte >= SPACE && byte < 127) this.at += 1;
    else this.at += this.longCharacter(byte);
  }

  escape() {
    const next = this.bytes[this.at + 1];
    if (next === QUOTE || next === BACKSLASH) {
      this.at += 2;
      return;
    }
    const pair = String.fromCharCode(next ?? 0, this.bytes[this.at + 2] ?? 0);
    if (!/^(?:[01][0-9a-f]|7f)$/.test(pair)) this.fail();
    this.at += 3;
  }

  /** How many bytes a character beyond ASCII has. */
  longCharacter(byte) {
    const second = this.bytes[this.at + 1];
    let length = 0;
    if (byte >= 0xc2 && byte <= 0xdf) length = 2;
    else if (byte >= 0xe0 && byte <= 0xef) length = 3;
    else if (byte >= 0xf0 && byte <= 0xf4) length = 4;
    else this.fail();
    const low = { 0xe0: 0xa0, 0xf0: 0x90 }[byte] ?? 0x80;
    const high = { 0xed: 0x9f, 0xf4: 0x8f }[byte] ?? 0xbf;
    if (!(second >= low && second <= high)) this.fail();
    for (let k = 2; k < length; k += 1) {
      if ((this.bytes[this.at + k] & 0xc0) !== 0x80) this.fail();
    }
    return length;
  }

  /** Words without a limit, as in a filter. */
  words() {
    this.expect(QUOTE);
    while (!this.accept(QUOTE)) this.character();
  }

  value() {
    this.values.one();
  }

  clause() {
    this.name();
    if (this.accept(code('?'))) return;
    if (this.accept(code('.'))) this.name();
    if (this.accept(code('^'))) this.words();
    else if (this.accept(code('='))) {
      if (this.peek() === QUOTE) this.words();
      else this.whole();
    } else if (this.accept(code(':'))) {
      this.whole();
      this.expectWord('..');
      this.whole();
    } else {
      if (!this.accept(code('<'))) this.expect(code('>'));
      this.whole();
    }
  }

  filter() {
    let count = 0;
    do {
      this.clause();
      count += 1;
    } while (this.accept(code('&')));
    if (count > MOST_CLAUSES) this.fail();
  }

  half() {
    if (!this.accept(code('S'))) this.expect(code('I'));
    if (this.has(' add ')) this.at += 5;
    else this.expectWord(' del ');
    this.tag();
  }

  /** Which of these words stands here, with a space or the end of the line behind it. */
  oneOf(words) {
    for (let kind = 0; kind < words.length; kind += 1) {
      if (this.has(words[kind])) {
        const behind = this.bytes[this.at + words[kind].length];
        if (behind === SPACE || behind === LF) {
          this.at += words[kind].length;
          return kind;
        }
      }
    }
    return this.fail();
  }

  /** A space and what this method reads, for each. */
  arguments(methods) {
    for (let k = 0; k < methods.length; k += 1) {
      this.expect(SPACE);
      this[methods[k]]();
    }
  }

  /** A unit's call: its place among CALLS. */
  call() {
    const kind = this.oneOf(CALLS);
    this.arguments(CALL_ARGUMENTS[kind]);
    return kind;
  }

  child() {
    this.expect(code('{'));
    this.tags(code('}'));
    this.privileges();
  }

  /** A reply: its place among REPLIES. */
  reply() {
    const kind = this.oneOf(REPLIES);
    this.arguments(REPLY_ARGUMENTS[kind]);
    return kind;
  }

  wide() {
    this.digits('18446744073709551615');
  }
}

const NAMED_CALL_ARGUMENTS = {
  add: ['number', 'label', 'name', 'value'],
  del: ['number', 'label', 'name'],
  read: ['number', 'name'],
  clone: ['number', 'label'],
  attach: ['number', 'label', 'name', 'privilege'],
  out: ['half'],
  inout: ['half'],
  drop: ['number'],
  sub: ['filter'],
  msub: ['filter'],
  publish: ['number'],
  release: ['number'],
  spawn: ['child'],
};
const CALL_ARGUMENTS = CALLS.map((call) => NAMED_CALL_ARGUMENTS[call] ?? []);

const NAMED_REPLY_ARGUMENTS = {
  handle: ['number'],
  tag: ['tag'],
  sub: ['number'],
  unit: ['number'],
  event: ['number', 'number'],
  'too many parts': ['wide'],
  lacks: ['privilege'],
  'cannot write': ['label', 'label'],
};
const REPLY_ARGUMENTS = REPLIES.map((reply) => NAMED_REPLY_ARGUMENTS[reply] ?? []);

const isBelow = (a, b) => {
  const most = Math.min(a.length, b.length);
  for (let k = 0; k < most; k += 1) {
    if (a[k] !== b[k]) return a[k] < b[k];
  }
  return a.length < b.length;
};

const isPrivilegeBelow = (a, b) =>
  isBelow(a.tag, b.tag) || (!isBelow(b.tag, a.tag) && a.right < b.right);

/** Reads one value, and counts its nodes and bytes at the first byte of each. */
class ValueReader {
  constructor(reader) {
    this.reader = reader;
    this.nodes = 0;
    this.bytes = 0;
  }

  one() {
    this.nodes = 0;
    this.bytes = 0;
    this.value(1);
  }

  countBytes(count) {
    this.bytes += count;
    if (this.bytes > MOST_BYTES) this.reader.fail('too large');
  }

  value(depth) {
    const { reader } = this;
    const byte = reader.peek();
    if (!beginsValue(byte)) reader.fail();
    this.nodes += 1;
    if (this.nodes > MOST_NODES || depth > MOST_DEPTH) reader.fail('too large');
    if (byte === QUOTE) this.words();
    else if (byte === code('x')) this.hexadecimal();
    else if (byte === code('[')) this.list(depth);
    else if (byte === code('(')) this.map(depth);
    else reader.whole();
  }

  words() {
    const { reader } = this;
    reader.expect(QUOTE);
    while (!reader.accept(QUOTE)) {
      this.countBytes(characterLength(reader.peek()));
      reader.character();
    }
  }

  hexadecimal() {
    const { reader } = this;
    reader.at += 1;
    reader.expect(QUOTE);
    while (!reader.accept(QUOTE)) {
      if (!isHexadecimal(reader.peek())) reader.fail();
      this.countBytes(1);
      if (!isHexadecimal(reader.bytes[reader.at + 1])) reader.fail();
      reader.at += 2;
    }
  }

  list(depth) {
    const { reader } = this;
    reader.at += 1;
    if (reader.accept(code(']'))) return;
    do this.value(depth + 1);
    while (reader.accept(code(',')));
    reader.expect(code(']'));
  }

  map(depth) {
    const { reader } = this;
    let last = -1;
    reader.at += 1;
    if (reader.accept(code(')'))) return;
    do {
      const from = reader.at;
      reader.name();
      if (last >= 0 && !this.isNameBelow(last, from)) reader.fail();
      this.countBytes(reader.at - from);
      last = from;
      reader.expect(code('='));
      this.value(depth + 1);
    } while (reader.accept(code(',')));
    reader.expect(code(')'));
  }

  /** Whether the name at one place is below that at a later one, up to which all is read. */
  isNameBelow(first, second) {
    const { bytes, at } = this.reader;
    let k = 0;
    while (bytes[first + k] === bytes[second + k] && second + k < at) k += 1;
    if (second + k === at) return false;
    return bytes[first + k] === 61 || bytes[first + k] < bytes[second + k];
  }
}

const beginsValue = (byte) =>
  isDigit(byte) || byte === QUOTE || byte === code('-') || byte === code('x')
  || byte === code('[') || byte === code('(');

/** What a character of words counts, told by its first byte; nothing where none begins so. */
function characterLength(byte) {
  if (byte === BACKSLASH || (byte >= SPACE && byte < 127)) return 1;
  if (byte >= 0xf0 && byte <= 0xf4) return 4;
  if (byte >= 0xe0 && byte < 0xf0) return 3;
  return byte >= 0xc2 && byte < 0xe0 ? 2 : 0;
}

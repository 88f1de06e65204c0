// A journal as columns: one number per entry for each thing that the picture needs. Texts are read
// from the bytes of the file when an entry comes into sight.
import { CALLS, EMITTED, Reader, REPLIES } from './grammar.js';
import { compareNumbers, compareTags, labelOf, tagSetOf } from './labels.js';

const MOST_DECODED = 4000;
const NO_UNIT = REPLIES.indexOf('no unit');
const PARTS = REPLIES.indexOf('parts');
const EVENT = REPLIES.indexOf('event');

/** What an entry did beyond its unit. */
export const NOTHING = 0;
export const COMMIT = 1;
export const GIVEN = 2;

/** A list of numbers that grows. */
class Column {
  constructor(Kind, room = 1024) {
    this.items = new Kind(room);
    this.length = 0;
  }

  push(item) {
    if (this.length === this.items.length) {
      const grown = new this.items.constructor(this.length * 2);
      grown.set(this.items);
      this.items = grown;
    }
    this.items[this.length] = item;
    this.length += 1;
  }

  done() {
    return this.items.slice(0, this.length);
  }
}

/** Reads the entries of a journal, one after another. */
class EntryReader extends Reader {
  constructor(bytes) {
    super(bytes);
    this.roots = [];
    this.columns = {
      offset: new Column(Uint32Array),
      line: new Column(Uint32Array),
      actor: new Column(Int32Array),
      label: new Column(Int32Array),
      call: new Column(Uint8Array),
      reply: new Column(Uint8Array),
      effect: new Column(Uint8Array),
      event: new Column(Int32Array),
      partStart: new Column(Uint32Array),
    };
    // The labels of the deletions, additions and handed parts of all entries, one after another.
    this.partLabels = new Column(Int32Array);
    this.events = [];
    this.eventIds = new Map();
  }

  start() {
    this.expectWord('defcon-journal 2');
    this.endLine();
    while (this.has('unit ')) this.root();
    this.expectWord('run');
    this.endLine();
  }

  root() {
    this.at += 5;
    const from = this.at;
    if (this.number() !== this.roots.length || this.peek() !== 32) this.fail();
    const unit = this.units.add(from, this.at);
    this.at += 1;
    const label = this.label();
    const privilegesFrom = this.at;
    this.privileges();
    const privileges = new TextDecoder().decode(this.bytes.subarray(privilegesFrom, this.at));
    this.endLine();
    this.roots.push({ unit, label, privileges: privileges.trim().split(' ').filter(Boolean) });
  }

  /** Whether one more entry was there; otherwise the journal ends here. */
  entry() {
    if (this.at === this.bytes.length) return false;
    if (this.peek() === 45) {
      this.expectWord('---');
      this.endLine();
      return false;
    }
    const { columns } = this;
    columns.offset.push(this.at);
    columns.line.push(this.line);
    columns.partStart.push(this.partLabels.length);
    if (this.has('emitted ')) this.emitted();
    else this.done();
    return true;
  }

  emitted() {
    this.at += 8;
    const event = this.eventName();
    const { unit } = this.events[event];
    this.edit();
    this.push(unit, -1, EMITTED, 0);
    this.pushEffect(COMMIT, event);
  }

  done() {
    const actor = this.unit();
    this.expect(32);
    const call = this.call();
    this.expectWord(' -> ');
    const reply = this.reply();
    this.endLine();
    const label = reply === NO_UNIT ? -1 : this.contamination();
    if (reply === PARTS) this.many(':', 'shown');
    this.push(actor, label, call, reply);
    this.effect(reply);
  }

  contamination() {
    this.expectWord('@ ');
    const label = this.label();
    this.endLine();
    return label;
  }

  effect(reply) {
    if (this.has('=')) {
      this.expectWord('= ');
      this.pushEffect(COMMIT, this.eventName());
      this.edit();
    } else if (reply === EVENT && this.has('<')) {
      this.expectWord('< ');
      this.pushEffect(GIVEN, this.eventName());
      this.many('.', 'part');
    } else this.pushEffect(NOTHING, -1);
  }

  /** An event's id; its line ends behind it. */
  eventName() {
    const unit = this.unit();
    this.expect(33);
    const number = this.number();
    this.endLine();
    const key = unit * 2 ** 32 + number;
    const known = this.eventIds.get(key);
    if (known !== undefined) return known;
    this.eventIds.set(key, this.events.length);
    this.events.push({ unit, number });
    return this.events.length - 1;
  }

  /** At least one line with this mark, read by this method. */
  many(mark, method) {
    let count = 0;
    while (this.has(mark)) {
      this.at += 1;
      this.expect(32);
      this[method]();
      this.endLine();
      count += 1;
    }
    if (count === 0) this.fail();
  }

  shown() {
    this.label();
    this.expect(32);
    this.value();
    this.privileges();
  }

  part() {
    this.partLabels.push(this.label());
    this.expect(32);
    this.name();
    this.expect(32);
    this.value();
    this.privileges();
  }

  /** Deletions, then additions, at least one line in all. */
  edit() {
    const before = this.partLabels.length;
    while (this.has('- ')) {
      this.at += 2;
      this.partLabels.push(this.label());
      this.expect(32);
      this.name();
      this.endLine();
    }
    if (this.has('+') || this.partLabels.length === before) this.many('+', 'part');
  }

  push(actor, label, call, reply) {
    const { columns } = this;
    columns.actor.push(actor);
    columns.label.push(label);
    columns.call.push(call);
    columns.reply.push(reply);
  }

  pushEffect(effect, event) {
    this.columns.effect.push(effect);
    this.columns.event.push(event);
  }
}

/** A unit by its spelling: a plain unit's path, or an instance's owner, subscription and tags. */
function unitOf(text) {
  const parts = /^([0-9.]+)(?:\/([0-9]+)(\{.*\}))?$/.exec(text);
  const path = parts[1].split('.').map(Number);
  if (parts[2] === undefined) return { text, path, isInstance: false };
  return {
    text, path, isInstance: true, owner: parts[1], sub: Number(parts[2]), tags: tagSetOf(parts[3]),
  };
}

/** The order of lanes: by path, instances right behind their owner. */
function compareLanes(a, b) {
  const byPath = compareNumbers(a.path, b.path);
  if (byPath !== 0 || a.isInstance !== b.isInstance) {
    return byPath || Number(a.isInstance) - Number(b.isInstance);
  }
  return a.sub - b.sub || compareTagLists(a.tags, b.tags);
}

function compareTagLists(a, b) {
  const differs = a.findIndex((tag, k) => k >= b.length || compareTags(tag, b[k]) !== 0);
  if (differs < 0) return a.length - b.length;
  return differs >= b.length ? 1 : compareTags(a[differs], b[differs]);
}

/** Lists of entries by a key, as one array and the places where each key's begin. */
class Groups {
  constructor(keyCount, length, keyOf) {
    this.starts = new Uint32Array(keyCount + 1);
    for (let k = 0; k < length; k += 1) {
      const key = keyOf(k);
      if (key >= 0) this.starts[key + 1] += 1;
    }
    for (let key = 0; key < keyCount; key += 1) this.starts[key + 1] += this.starts[key];
    this.items = new Uint32Array(this.starts[keyCount]);
    const next = this.starts.slice();
    for (let k = 0; k < length; k += 1) {
      const key = keyOf(k);
      if (key >= 0) {
        this.items[next[key]] = k;
        next[key] += 1;
      }
    }
  }

  /** The entries of a key, in order. */
  of(key) {
    return this.items.subarray(this.starts[key], this.starts[key + 1]);
  }
}

/** The place of the first item that isn't below `least`. */
export function firstFrom(items, least) {
  let low = 0;
  let high = items.length;
  while (low < high) {
    const middle = (low + high) >> 1;
    if (items[middle] < least) low = middle + 1;
    else high = middle;
  }
  return low;
}

/** The words of a line: what stands between spaces that aren't within quotes. */
export function wordsOf(line) {
  if (!line.includes('"')) return line.split(' ');
  return line.match(/(?:"(?:\\.|[^"\\])*"|[^ "])+/gs) ?? [];
}

const partOf = ([label, name, value, ...privileges]) => ({ label, name, value, privileges });

export class Journal {
  constructor(reader) {
    this.decoder = new TextDecoder();
    this.decoded = new Map();
    this.bytes = reader.bytes;
    this.end = reader.end;
    this.length = reader.columns.offset.length;
    for (const [name, column] of Object.entries(reader.columns)) this[name] = column.done();
    this.partLabels = reader.partLabels.done();
    this.roots = reader.roots;
    this.events = reader.events;
    this.eventIds = reader.eventIds;
    this.labelTexts = reader.labels.texts();
    this.labels = this.labelTexts.map(labelOf);
    this.units = reader.units.texts().map(unitOf);
    this.unitIds = new Map(this.units.map((unit, id) => [unit.text, id]));
    this.addChildren();
    this.group();
  }

  /** Units that were made but never act have a lane too. */
  addChildren() {
    const spawn = CALLS.indexOf('spawn');
    const unit = REPLIES.indexOf('unit');
    this.madeBy = new Map();
    for (let k = 0; k < this.length; k += 1) {
      if (this.call[k] !== spawn || this.reply[k] !== unit) continue;
      const child = `${this.units[this.actor[k]].text}.${this.decode(k).reply[1]}`;
      this.madeBy.set(this.addUnit(child), k);
    }
  }

  addUnit(text) {
    if (!this.unitIds.has(text)) {
      this.unitIds.set(text, this.units.length);
      this.units.push(unitOf(text));
    }
    return this.unitIds.get(text);
  }

  group() {
    const order = this.units.map((_, id) => id);
    order.sort((a, b) => compareLanes(this.units[a], this.units[b]));
    this.lanes = Int32Array.from(order);
    this.laneOf = new Int32Array(order.length);
    order.forEach((id, lane) => { this.laneOf[id] = lane; });
    this.laneAt = this.actor.map((id) => this.laneOf[id]);
    const byEvent = (effect) => (k) => (this.effect[k] === effect ? this.event[k] : -1);
    const byActor = (k) => (this.call[k] === EMITTED ? -1 : this.actor[k]);
    this.entriesOfUnit = new Groups(order.length, this.length, byActor);
    this.commitsOfEvent = new Groups(this.events.length, this.length, byEvent(COMMIT));
    this.getsOfEvent = new Groups(this.events.length, this.length, byEvent(GIVEN));
  }

  text(from, to) {
    return this.decoder.decode(this.bytes.subarray(from, to));
  }

  /** The lines of an entry, as they stand in the file. */
  linesOf(k) {
    const end = k + 1 < this.length ? this.offset[k + 1] : this.end;
    const lines = this.text(this.offset[k], end).split('\n');
    lines.pop();
    return lines;
  }

  /** An entry taken apart. What was looked at lately is kept. */
  decode(k) {
    const known = this.decoded.get(k);
    if (known) return known;
    if (this.decoded.size >= MOST_DECODED) this.decoded.clear();
    const entry = decodeLines(this.linesOf(k));
    this.decoded.set(k, entry);
    return entry;
  }

  eventText(event) {
    const { unit, number } = this.events[event];
    return `${this.units[unit].text}!${number}`;
  }

  /** The id of a label, which it gets now where the file doesn't have it. */
  labelId(text) {
    const known = this.labelTexts.indexOf(text);
    if (known >= 0) return known;
    this.labelTexts.push(text);
    this.labels.push(labelOf(text));
    return this.labels.length - 1;
  }

  isCall(k, name) {
    return CALLS[this.call[k]] === name;
  }

  partEnd(k) {
    return k + 1 < this.length ? this.partStart[k + 1] : this.partLabels.length;
  }

  isAccepted(k) {
    return this.call[k] !== EMITTED && this.reply[k] <= PARTS;
  }

  existsAt(k) {
    return this.label[k] >= 0;
  }
}

function decodeLines(lines) {
  const entry = { call: [], reply: [], label: null, event: null, shown: [], deleted: [], added: [],
    given: [] };
  const [first, ...below] = lines;
  if (first.startsWith('emitted ')) entry.event = first.slice(8);
  else {
    const words = wordsOf(first);
    const arrow = words.lastIndexOf('->');
    entry.call = words.slice(1, arrow);
    entry.reply = words.slice(arrow + 1);
  }
  below.forEach((line) => decodeBelow(entry, line));
  return entry;
}

function decodeBelow(entry, line) {
  const words = wordsOf(line.slice(2));
  if (line[0] === '@') [entry.label] = words;
  else if (line[0] === ':') entry.shown.push(partOf([words[0], null, ...words.slice(1)]));
  else if (line[0] === '-') entry.deleted.push({ label: words[0], name: words[1] });
  else if (line[0] === '+') entry.added.push(partOf(words));
  else if (line[0] === '.') entry.given.push(partOf(words));
  else [entry.event] = words;
}

/** Reads a journal, and lets others go on now and then. Throws Refused where it isn't in form. */
export async function readJournal(bytes, onProgress = () => {}) {
  const reader = new EntryReader(bytes);
  reader.start();
  let more = true;
  while (more) {
    for (let count = 0; more && count < 20000; count += 1) {
      reader.end = reader.at;
      more = reader.entry();
    }
    if (more) await onProgress(reader.at / bytes.length);
  }
  return new Journal(reader);
}

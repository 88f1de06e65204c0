// Entries in words: short for a lane, as a sentence for the panel.
import { ACCEPTED, CALLS, EMITTED, REPLIES } from './grammar.js';
import { COMMIT, GIVEN } from './journal.js';

const SHORT = {
  add: ([h, label, name, value]) => `add ${name} ${value}`,
  del: ([h, label, name]) => `del ${name}`,
  read: ([h, name]) => `read ${name}`,
  attach: ([h, label, name, privilege]) => `attach ${privilege} to ${name}`,
};

/** An entry in a few words, for its place in a lane. */
export function shortText(journal, k, entry) {
  if (journal.call[k] === EMITTED) return `emitted ${entry.event}`;
  const name = CALLS[journal.call[k]];
  const text = SHORT[name]?.(entry.call.slice(1)) ?? entry.call.join(' ');
  if (journal.effect[k] === GIVEN) return `get ${entry.event}`;
  if (journal.effect[k] === COMMIT) return `${name} ${entry.event}`;
  if (journal.reply[k] >= ACCEPTED) return `${text} → ${entry.reply.join(' ')}`;
  if (name === 'tag') return `tag ${entry.reply[1]}`;
  if (name === 'spawn') return `spawn ${journal.units[journal.actor[k]].text}.${entry.reply[1]}`;
  return text;
}

/** An entry in a word, for a narrow lane: its mark tells the rest. */
export function shortestText(journal, k, entry) {
  if (journal.effect[k] !== 0) return entry.event;
  const name = CALLS[journal.call[k]];
  if (journal.reply[k] >= ACCEPTED) return `${name} → ${entry.reply.join(' ')}`;
  return name === 'read' ? entry.call[2] : name;
}

/** What an accepted call did, and what any such call asks for. */
const DEEDS = {
  create: () => ['began a draft of a new event', 'begin a draft'],
  add: ([h, label, name]) => [`put a part ${name} into its handle ${h}`, `add a part ${name}`],
  del: ([h, label, name]) => [`took the part ${name} out of its handle ${h}`, `delete ${name}`],
  read: ([h, name]) => [`read ${name}`, `read ${name}`],
  clone: ([h]) => [`began a draft with the parts of its handle ${h}`, `clone its handle ${h}`],
  attach: ([h, label, name, privilege]) => [
    `put the privilege ${privilege} on its part ${name}`, `attach ${privilege} to ${name}`],
  out: ([half, act, tag]) => [
    `${act === 'add' ? 'put' : 'took'} ${tag} ${act === 'add' ? 'into' : 'out of'} `
    + `${HALVES[half]} of its output label`, `change its output label by ${tag}`],
  inout: ([half, act, tag]) => [
    `${act === 'add' ? 'put' : 'took'} ${tag} ${act === 'add' ? 'into' : 'out of'} `
    + `${HALVES[half]} of both its labels`, `change both its labels by ${tag}`],
  tag: (words, entry) => [`made the tag ${entry.reply[1]}`, 'make a tag'],
  drop: ([h]) => [`closed its handle ${h}`, `close its handle ${h}`],
  sub: ([filter]) => [`subscribed to ${filter}`, `subscribe to ${filter}`],
  msub: ([filter]) => [`had instances serve ${filter}`, `have instances serve ${filter}`],
  get: (words, entry) => [`was handed the event ${entry.event}`, 'be handed its next event'],
  publish: (words, entry) => [`published the event ${entry.event}`, 'publish a draft'],
  release: (words, entry) => [
    entry.event ? `changed the event ${entry.event}` : 'released a view without a change',
    'release a view'],
  spawn: (words, entry, unit) => [`made the unit ${unit}.${entry.reply[1]}`, 'make a unit'],
};

const HALVES = { S: 'the secrets', I: 'the integrity' };

/** An entry as a sentence. */
export function sentence(journal, k, entry) {
  const unit = journal.units[journal.actor[k]].text;
  if (journal.call[k] === EMITTED) {
    return `Somebody told this. Unit ${unit} made the event; the journal names neither a unit nor `
      + 'a call here.';
  }
  const [did, asked] = DEEDS[CALLS[journal.call[k]]](entry.call.slice(1), entry, unit);
  if (journal.reply[k] < ACCEPTED) return `Unit ${unit} ${did}.`;
  if (REPLIES[journal.reply[k]] === 'nothing') {
    return `Unit ${unit} asked for its next event, and there was none.`;
  }
  return `Unit ${unit} asked to ${asked}. The answer was: ${entry.reply.join(' ')}.`;
}

/** A count and its noun. */
export const counted = (count, one, many) =>
  `${count.toLocaleString('en')} ${count === 1 ? one : many}`;

/** A text cut to a length, with a sign that it was. */
export const cutText = (text, most) => (text.length > most ? `${text.slice(0, most - 1)}…` : text);

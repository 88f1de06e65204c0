// What a label may see of a journal. The rule is that of a purge: an entry stays where the
// contamination noted with it flows to the label; of another's commit stay its readable parts.
import { EMITTED } from './grammar.js';
import { COMMIT } from './journal.js';
import { flowsTo, labelOf, labelText } from './labels.js';
import { counted } from './words.js';

const MOST_NAMED = 4;

export const STRUCK = 0;
export const STAYS = 1;
export const SHOWN_AS_EMITTED = 2;

export class LabelView {
  constructor(journal, label) {
    this.journal = journal;
    this.label = label;
    this.text = labelText(label);
    this.flows = Uint8Array.from(journal.labels, (other) => Number(flowsTo(other, label)));
    this.status = new Uint8Array(journal.length);
    for (let k = 0; k < journal.length; k += 1) this.status[k] = this.statusOf(k);
  }

  statusOf(k) {
    const { journal, flows } = this;
    if (journal.label[k] >= 0 && flows[journal.label[k]] === 1) return STAYS;
    return journal.effect[k] === COMMIT && this.showsSome(k) ? SHOWN_AS_EMITTED : STRUCK;
  }

  showsSome(k) {
    const { journal, flows } = this;
    for (let at = journal.partStart[k]; at < journal.partEnd(k); at += 1) {
      if (flows[journal.partLabels[at]] === 1) return true;
    }
    return false;
  }

  /** Whether a contamination of this id is within the label. */
  isWithin(id) {
    return flowsTo(this.journal.labels[id], this.label);
  }

  /** Whether this label, as a text, flows to the view's. */
  sees(text) {
    return flowsTo(labelOf(text), this.label);
  }

  /** What the label sees of an entry's parts: of one that stays all, of a commit the readable. */
  partsOf(k, parts) {
    return this.status[k] === STAYS ? parts : parts.filter((part) => this.sees(part.label));
  }

  /** The journal of what doesn't fade, in the form in which a purge is written. */
  rest() {
    return [...this.restLines()].map((line) => `${line}\n`).join('');
  }

  * restLines() {
    const { journal } = this;
    const head = journal.text(0, journal.offset[0] ?? journal.end);
    yield* head.split('\n').slice(0, -1);
    for (let k = 0; k < journal.length; k += 1) {
      if (this.status[k] === STAYS) yield* journal.linesOf(k);
      if (this.status[k] === SHOWN_AS_EMITTED) yield* this.emittedLines(k);
    }
  }

  * emittedLines(k) {
    const { journal } = this;
    yield `emitted ${journal.eventText(journal.event[k])}`;
    for (const line of journal.linesOf(k)) {
      const isEdit = line.startsWith('+ ') || line.startsWith('- ');
      if (isEdit && this.sees(line.split(' ', 2)[1])) yield line;
    }
  }

  /** Who is within the label and who isn't, and what was let out to it, as sentences. */
  summary() {
    const { journal, status } = this;
    const count = [0, 0, 0];
    status.forEach((one) => { count[one] += 1; });
    const { within, beyond } = this.units();
    const [struck, whole, emitted] = count.map((one) => one.toLocaleString('en'));
    const all = counted(journal.length, 'entry', 'entries');
    const sentences = [`At ${this.text} ${whole} of ${all} stay`
      + `${count[SHOWN_AS_EMITTED] > 0 ? `, ${emitted} more as emitted` : ''}; `
      + `${struck} ${count[STRUCK] === 1 ? 'is' : 'are'} struck out.`];
    if (within.length > 0) sentences.push(`Within the label to the end: ${names(within)}.`);
    if (beyond.length > 0) sentences.push(`Could read more than the label may: ${names(beyond)}.`);
    const isFew = count[SHOWN_AS_EMITTED] <= MOST_NAMED;
    if (count[SHOWN_AS_EMITTED] > 0 && isFew) sentences.push(this.letOut());
    else if (beyond.length > 0 && isFew) sentences.push('Nothing was let out to the label.');
    return sentences;
  }

  /** What others told the label, each commit. */
  letOut() {
    const { journal } = this;
    const places = [];
    this.status.forEach((one, k) => { if (one === SHOWN_AS_EMITTED) places.push(k); });
    const told = places.map((k) => {
      const parts = this.partsOf(k, journal.decode(k).added).map((part) => part.name);
      const by = isEmitted(journal, k) ? '' : ` by unit ${journal.units[journal.actor[k]].text}`;
      return `${parts.join(' and ') || 'a deletion'}${by} at entry ${k}`;
    });
    return `Let out to the label, and drawn as emitted: ${told.join('; ')}.`;
  }

  /** The units that act, by whether all their entries are within the label. */
  units() {
    const { journal } = this;
    const within = [];
    const beyond = [];
    for (const id of journal.lanes) {
      const places = [...journal.entriesOfUnit.of(id)].filter((k) => journal.existsAt(k));
      if (places.length === 0) continue;
      const first = places.find((k) => this.flows[journal.label[k]] === 0);
      const { text } = journal.units[id];
      if (first === undefined) within.push(text);
      else beyond.push(first === places[0] ? text : `${text} (from entry ${first} on)`);
    }
    return { within, beyond };
  }
}

/** Whether an entry of a journal is one that a purge or another wrote without its unit. */
const isEmitted = (journal, k) => journal.call[k] === EMITTED;


/** Names with a comma between each two; of many only the first. */
function names(units, most = 12) {
  const shown = units.slice(0, most).join(', ');
  const word = units.length === 1 ? 'unit' : 'units';
  const more = units.length > most ? ` and ${units.length - most} more` : '';
  return `${word} ${shown}${more}`;
}

// What the lanes show, apart from how it is drawn: where a unit's contamination changes, and which
// commit brought a get its event.
import { ACCEPTED } from './grammar.js';
import { COMMIT, firstFrom, GIVEN } from './journal.js';
import { labelText } from './labels.js';

const UNKNOWN = -2;
const MANY = 400;

export class LaneMap {
  constructor(journal, rules) {
    this.journal = journal;
    this.rules = rules;
    this.sources = new Int32Array(journal.length).fill(UNKNOWN);
    this.runs = new Map();
  }

  /** The commit that brought a get its event, or -1. */
  sourceOf(get) {
    if (this.sources[get] === UNKNOWN) this.sources[get] = this.rules.commitOf(get);
    return this.sources[get];
  }

  /** The gets that a commit brought, in order. */
  getsOf(commit) {
    const { journal } = this;
    if (journal.effect[commit] !== COMMIT) return [];
    const gets = journal.getsOfEvent.of(journal.event[commit]);
    return gets.subarray(firstFrom(gets, commit)).filter((get) => this.sourceOf(get) === commit);
  }

  /** The stretches of a unit's lane, each from an entry on at a contamination. */
  runsOf(id) {
    if (!this.runs.has(id)) this.runs.set(id, this.stretches(id));
    return this.runs.get(id);
  }

  stretches(id) {
    const { journal } = this;
    const places = journal.entriesOfUnit.of(id);
    const runs = [];
    let from = this.beginOf(id, places);
    for (const k of places) {
      const label = journal.label[k];
      if (label >= 0) {
        if (runs.length === 0 || runs[runs.length - 1].label !== label) runs.push({ from, label });
        from = k + 1;
      }
    }
    this.addLast(id, places, runs);
    return runs;
  }

  /** Where a unit's lane begins. */
  beginOf(id, places) {
    const { journal } = this;
    if (journal.madeBy.has(id)) return journal.madeBy.get(id) + 1;
    if (!journal.units[id].isInstance) return 0;
    const get = places.find((k) => journal.effect[k] === GIVEN);
    const first = places.find((k) => journal.label[k] >= 0) ?? 0;
    return get === undefined ? first : Math.min(first, this.sourceOf(get) + 1);
  }

  /** The label of a unit that never acts, and a change by its last entry, stand in no entry. */
  addLast(id, places, runs) {
    const { journal } = this;
    const root = journal.roots.find((one) => one.unit === id);
    const last = places[places.length - 1];
    if (runs.length === 0 && root) runs.push({ from: 0, label: root.label });
    else if (runs.length === 0 && journal.madeBy.has(id)) {
      const state = this.rules.beginning(id);
      const label = journal.labelId(labelText(state.contamination));
      runs.push({ from: journal.madeBy.get(id) + 1, label });
    } else if (last !== undefined && this.isLabelChange(last)) {
      const state = this.rules.stateBefore(id, last + 1);
      const label = state ? journal.labelId(labelText(state.contamination)) : -1;
      const before = runs[runs.length - 1];
      if (label >= 0 && before && before.label !== label) runs.push({ from: last + 1, label });
    }
  }

  isLabelChange(k) {
    const { journal } = this;
    return journal.isCall(k, 'inout') && journal.reply[k] < ACCEPTED;
  }

  /** A unit's contamination at a place, or -1 where it isn't there yet. */
  labelAt(id, place) {
    const runs = this.runsOf(id);
    let label = -1;
    for (const run of runs) {
      if (run.from > place) break;
      label = run.label;
    }
    return label;
  }

  /** The label that stands for what a get was handed: that of a part with all their secrets. */
  carriedBy(get) {
    const { journal } = this;
    const ids = journal.partLabels.subarray(journal.partStart[get], journal.partEnd(get));
    if (ids.length === 0 || ids.length > MANY) return journal.label[get];
    const covers = (id) => ids.every((other) => journal.labels[other].s
      .every((tag) => journal.labels[id].s.includes(tag)));
    return ids.find(covers) ?? journal.label[get];
  }
}

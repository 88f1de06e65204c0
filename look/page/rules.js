// What a journal says of its units and events: their states, who was handed what by which commit,
// and what an entry rests on. All of it is of right journals; nothing is checked here.
import { ACCEPTED, CALLS, EMITTED, REPLIES } from './grammar.js';
import { COMMIT, firstFrom, GIVEN } from './journal.js';
import {
  flowsTo, isSubset, join, labelOf, labelText, meet, raised, sameTags, tagSetOf, union, withTag,
  withoutTag,
} from './labels.js';
import { filterOf, matches, serves } from './values.js';

const call = (name) => CALLS.indexOf(name);
const reply = (name) => REPLIES.indexOf(name);
const GET = call('get');
const INOUT = call('inout');
const MSUB = call('msub');
const SUB_REPLY = reply('sub');
const TOO_MANY_HANDLES = reply('too many handles');

const isAt = (part, spot) => part.name === spot.name && part.label === spot.label;
const spared = (parts, spots) => parts.filter((part) => !spots.some((spot) => isAt(part, spot)));
const readableAt = (input, parts) => parts.filter((part) => flowsTo(labelOf(part.label), input));

/** The parts of a view that its unit can read and hasn't named for deletion. */
export const visibleIn = (input, handle) => spared(readableAt(input, handle.seen), handle.named);

/** A unit that has done nothing yet. */
const beginning = (input, output, contamination, privileges, before = {}) => ({
  input,
  output,
  contamination,
  dropped: before.dropped ?? [],
  endorsed: before.endorsed ?? [],
  held: new Set(privileges),
  events: 0,
  tags: 0,
  subs: 0,
  units: 0,
  given: 0,
  handles: new Map(),
});

const fixedOf = (state, filter) => ({
  ...state,
  filter,
  base: union(state.input.s, state.output.s),
  inputIntegrity: state.input.i,
  outputIntegrity: meet(state.input.i, state.output.i),
});

function instanceOf(fixed, tags) {
  const input = { s: tags, i: fixed.inputIntegrity };
  const output = { s: tags, i: fixed.outputIntegrity };
  return beginning(input, output, join(fixed.contamination, input), fixed.held, fixed);
}

function childOf(maker, tags, privileges) {
  const secrets = union(union(tags, maker.input.s), maker.output.s);
  const input = { s: secrets, i: maker.input.i };
  const output = { s: secrets, i: meet(maker.input.i, maker.output.i) };
  return beginning(input, output, join(maker.contamination, input), privileges, maker);
}

/** Whether some choice of a part for each clause, one of them added, brings the tags to `tags`. */
function gives(fixed, tags, old, added) {
  let sets = new Map([[`old ${fixed.base}`, { tags: fixed.base, fresh: false }]]);
  for (const clause of filterOf(fixed.filter)) {
    const fits = (part) => serves(clause, part)
      && isSubset(fixed.inputIntegrity, labelOf(part.label).i)
      && isSubset(labelOf(part.label).s, tags);
    const next = new Map();
    const take = (set, part, fresh) => {
      const more = union(set.tags, labelOf(part.label).s);
      next.set(`${fresh ? 'new' : 'old'} ${more}`, { tags: more, fresh });
    };
    for (const set of sets.values()) {
      old.filter(fits).forEach((part) => take(set, part, set.fresh));
      added.filter(fits).forEach((part) => take(set, part, true));
    }
    sets = next;
  }
  return [...sets.values()].some((set) => set.fresh && sameTags(set.tags, tags));
}

function open(state, handle) {
  let number = 0;
  while (state.handles.has(number)) number += 1;
  state.handles.set(number, handle);
}

const draftOf = (event, parts) => ({ isView: false, event, seen: [], named: [], drafted: parts });

function draft(state, unit, parts) {
  open(state, draftOf(`${unit.text}!${state.events}`, parts));
  state.events += 1;
}

const atOutput = (state, label) => labelText(raised(state.output, label));

function changeHalf(label, [half, act, tag]) {
  const key = half.toLowerCase();
  const change = act === 'add' ? withTag : withoutTag;
  return { ...label, [key]: change(label[key], tag) };
}

function changeOutput(state, [half, act, tag]) {
  if (half === 'S' && act === 'del' && state.output.s.includes(tag)) {
    state.dropped = withTag(state.dropped, tag);
  }
  if (half === 'I' && act === 'add' && !state.output.i.includes(tag)) {
    state.endorsed = withTag(state.endorsed, tag);
  }
  state.output = changeHalf(state.output, [half, act, tag]);
}

/** What each accepted call makes of its unit's state. */
const CHANGES = {
  create: (state, unit) => draft(state, unit, []),
  add(state, unit, [h, label, name, value]) {
    const part = { label: atOutput(state, labelOf(label)), name, value, privileges: [] };
    state.handles.get(Number(h))?.drafted.push(part);
  },
  del(state, unit, [h, label, name]) {
    const handle = state.handles.get(Number(h));
    const kept = spared(handle?.drafted ?? [], [{ label, name }]);
    if (kept.length < (handle?.drafted.length ?? 0)) handle.drafted = kept;
    else handle?.named.push({ label, name });
  },
  read(state, unit, words, entry) {
    entry.shown.forEach((part) => part.privileges.forEach((one) => state.held.add(one)));
  },
  clone(state, unit, [h, label]) {
    const handle = state.handles.get(Number(h)) ?? draftOf('', []);
    const at = labelOf(label);
    const parts = [...visibleIn(state.input, handle), ...handle.drafted];
    draft(state, unit, parts.map((part) => ({
      ...part, label: atOutput(state, raised(at, labelOf(part.label))), privileges: [],
    })));
  },
  attach(state, unit, [h, label, name, privilege]) {
    const drafted = state.handles.get(Number(h))?.drafted ?? [];
    drafted.filter((part) => isAt(part, { label, name })).forEach((part) => {
      part.privileges = [...new Set([...part.privileges, privilege])];
    });
  },
  out: (state, unit, words) => changeOutput(state, words),
  inout(state, unit, words) {
    changeOutput(state, words);
    state.input = changeHalf(state.input, words);
    state.contamination = join(state.contamination, state.input);
  },
  tag(state, unit, words, entry) {
    state.tags += 1;
    ['+', '-', '+auth', '-auth'].forEach((right) => state.held.add(entry.reply[1] + right));
  },
  drop: (state, unit, [h]) => state.handles.delete(Number(h)),
  sub: (state) => { state.subs += 1; },
  msub: (state) => { state.subs += 1; },
  get(state, unit, words, entry) {
    state.given += 1;
    open(state, { isView: true, event: entry.event, seen: entry.given, named: [], drafted: [] });
  },
  publish: (state, unit, [h]) => state.handles.delete(Number(h)),
  release: (state, unit, [h]) => state.handles.delete(Number(h)),
  spawn: (state) => { state.units += 1; },
};

/** The places that are marked, ascending. */
function placesOf(marks) {
  const places = [];
  marks.forEach((mark, k) => { if (mark === 1) places.push(k); });
  return Uint32Array.from(places);
}

export class Rules {
  constructor(journal) {
    this.journal = journal;
    // Of each unit the state that was asked for last, and how many entries made it.
    this.states = new Map();
    this.inputs = new Map();
    this.subscriptions = new Map();
    this.commits = [];
    for (let k = 0; k < journal.length; k += 1) {
      if (journal.effect[k] === COMMIT) this.commits.push(k);
    }
  }

  /** The state in which a unit begins, or null where nothing in the journal makes it. */
  beginning(id) {
    const { journal } = this;
    const unit = journal.units[id];
    if (unit.isInstance) {
      const fixed = this.fixed(unit);
      return fixed && instanceOf(fixed, unit.tags);
    }
    const root = journal.roots.find((one) => one.unit === id);
    if (root) {
      const label = journal.labels[root.label];
      return beginning(label, label, label, root.privileges);
    }
    const place = journal.madeBy.get(id);
    if (place === undefined) return null;
    const [, tags, ...privileges] = journal.decode(place).call;
    return childOf(this.stateBefore(journal.actor[place], place), tagSetOf(tags), privileges);
  }

  /** What an instance's subscription kept of its owner. */
  fixed(unit) {
    const sub = this.managed(unit);
    if (!sub) return null;
    if (!sub.fixed) sub.fixed = fixedOf(this.stateBefore(sub.unit, sub.place), sub.filter);
    return sub.fixed;
  }

  managed(unit) {
    const owner = this.journal.unitIds.get(unit.owner);
    if (owner === undefined) return undefined;
    return this.subscriptionsOf(owner).find((one) => one.number === unit.sub && one.isManaged);
  }

  /** The subscriptions of a unit, each with the entry that made it. */
  subscriptionsOf(id) {
    const { journal } = this;
    if (!this.subscriptions.has(id)) {
      const isSubscription = (k) => journal.reply[k] === SUB_REPLY;
      const places = [...journal.entriesOfUnit.of(id)].filter(isSubscription);
      this.subscriptions.set(id, places.map((place) => {
        const entry = journal.decode(place);
        return {
          unit: id,
          place,
          number: Number(entry.reply[1]),
          filter: entry.call[1],
          isManaged: journal.call[place] === MSUB,
        };
      }));
    }
    return this.subscriptions.get(id);
  }

  /** A unit's own state before a place; null where the unit can't be there. */
  stateBefore(id, place) {
    const { journal } = this;
    const places = journal.entriesOfUnit.of(id);
    const known = this.states.get(id);
    const isAhead = known && known.next > 0 && places[known.next - 1] >= place;
    const from = known && !isAhead ? known : { state: this.beginning(id), next: 0 };
    if (!from.state) return null;
    for (; from.next < places.length && places[from.next] < place; from.next += 1) {
      this.step(from.state, journal.units[id], places[from.next]);
    }
    this.states.set(id, from);
    return structuredClone(from.state);
  }

  step(state, unit, k) {
    const { journal } = this;
    if (!journal.existsAt(k) || journal.reply[k] >= ACCEPTED) return;
    const entry = journal.decode(k);
    CHANGES[CALLS[journal.call[k]]](state, unit, entry.call.slice(1), entry);
  }

  /** A plain unit's input label before a place. */
  inputBefore(id, place) {
    if (!this.inputs.has(id)) this.inputs.set(id, this.inputsOf(id));
    return this.inputs.get(id).findLast((one) => one.place < place)?.label ?? null;
  }

  inputsOf(id) {
    const { journal } = this;
    const first = this.beginning(id);
    if (!first) return [];
    let label = first.input;
    const inputs = [{ place: journal.madeBy.get(id) ?? -1, label }];
    for (const k of journal.entriesOfUnit.of(id)) {
      if (journal.call[k] === INOUT && journal.existsAt(k) && journal.isAccepted(k)) {
        label = changeHalf(label, journal.decode(k).call.slice(1));
        inputs.push({ place: k, label });
      }
    }
    return inputs;
  }

  /** The subscriptions of a unit that a commit serves, by what was there and what it adds. */
  served(id, place, old, added) {
    const unit = this.journal.units[id];
    if (unit.isInstance) {
      const sub = this.managed(unit);
      const isServed = sub && sub.place < place && gives(this.fixed(unit), unit.tags, old, added);
      return isServed ? [unit.sub] : [];
    }
    const input = this.inputBefore(id, place);
    if (!input || readableAt(input, added).length === 0) return [];
    const seen = readableAt(input, [...old, ...added]);
    return this.subscriptionsOf(id)
      .filter((sub) => !sub.isManaged && sub.place < place && matches(filterOf(sub.filter), seen))
      .map((sub) => sub.number);
  }

  /** What these commits bring to a unit, in order. */
  * deliveries(id, commits) {
    const { journal } = this;
    const contents = new Map();
    const handed = new Set();
    for (const place of commits) {
      const event = journal.event[place];
      const { deleted, added } = journal.decode(place);
      const old = spared(contents.get(event) ?? [], deleted);
      contents.set(event, [...old, ...added]);
      for (const sub of this.served(id, place, old, added)) {
        const key = `${event} ${sub}`;
        if (!handed.has(key)) yield { place, event, sub };
        handed.add(key);
      }
    }
  }

  /** The commit by which a get came to its event, or -1. */
  commitOf(get) {
    const { journal } = this;
    const all = journal.commitsOfEvent.of(journal.event[get]);
    const before = all.subarray(0, firstFrom(all, get));
    if (before.length < 2) return before.length === 0 ? -1 : before[0];
    const sub = Number(journal.decode(get).reply[2]);
    for (const delivery of this.deliveries(journal.actor[get], before)) {
      if (delivery.sub === sub) return delivery.place;
    }
    return before[0];
  }

  /** The commit of the delivery that a get without a free handle would have taken, or -1. */
  commitWaiting(get) {
    const { journal } = this;
    const places = journal.entriesOfUnit.of(journal.actor[get]);
    const isTaken = (k) => journal.effect[k] === GIVEN;
    const next = places.subarray(firstFrom(places, get)).find(isTaken);
    if (next !== undefined) return this.commitOf(next);
    let left = places.subarray(0, firstFrom(places, get)).filter(isTaken).length;
    for (const delivery of this.deliveries(journal.actor[get], this.commits)) {
      if (left === 0) return delivery.place;
      left -= 1;
    }
    return -1;
  }

  /** The commit from which an instance exists, or -1. It is the first that brings it anything. */
  birthOf(id) {
    const { journal } = this;
    const first = journal.entriesOfUnit.of(id).find((k) => journal.effect[k] === GIVEN);
    if (first !== undefined) return this.commitOf(first);
    for (const delivery of this.deliveries(id, this.commits)) return delivery.place;
    return -1;
  }

  /** The entry that made a unit be there: a subscription, or its maker's spawn; -1 for a root. */
  originOf(id) {
    const unit = this.journal.units[id];
    if (unit.isInstance) return this.managed(unit)?.place ?? -1;
    return this.journal.madeBy.get(id) ?? -1;
  }

  /** The places on which an entry rests, its own among them, ascending. */
  grounds(place) {
    const { journal } = this;
    const isGround = new Uint8Array(journal.length);
    const taken = new Map();
    const waiting = [place];
    while (waiting.length > 0) {
      const k = waiting.pop();
      if (k >= 0 && isGround[k] === 0) {
        isGround[k] = 1;
        this.restOf(k, taken, waiting);
      }
    }
    return placesOf(isGround);
  }

  /** Adds what one ground asks for. `taken` has how many entries of a unit were added. */
  restOf(k, taken, waiting) {
    const { journal } = this;
    if (journal.effect[k] === COMMIT) {
      const all = journal.commitsOfEvent.of(journal.event[k]);
      waiting.push(...all.subarray(0, firstFrom(all, k)));
    }
    if (journal.call[k] === EMITTED || !journal.existsAt(k)) return;
    const id = journal.actor[k];
    const places = journal.entriesOfUnit.of(id);
    const end = firstFrom(places, k);
    if (!taken.has(id)) {
      waiting.push(this.originOf(id));
      if (journal.units[id].isInstance) waiting.push(this.birthOf(id));
    }
    for (let n = taken.get(id) ?? 0; n < end; n += 1) waiting.push(places[n]);
    taken.set(id, Math.max(taken.get(id) ?? 0, end));
    if (journal.call[k] !== GET) return;
    if (journal.effect[k] === GIVEN) waiting.push(this.commitOf(k));
    if (journal.reply[k] === TOO_MANY_HANDLES) waiting.push(this.commitWaiting(k));
  }
}

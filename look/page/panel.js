// The panel beside the lanes: an entry, a unit or the whole journal in words.
import { CALLS, EMITTED } from './grammar.js';
import { COMMIT, firstFrom, GIVEN } from './journal.js';
import { labelText } from './labels.js';
import { visibleIn } from './rules.js';
import { STRUCK } from './label_view.js';
import { element, longList, longText } from './dom.js';
import { counted, cutText, sentence, shortText } from './words.js';

/** The calls that read a view or close it. */
const OF_HANDLES = ['read', 'drop', 'release', 'publish'].map((name) => CALLS.indexOf(name));

export class Panel {
  /** `app` selects entries and units and chooses labels. */
  constructor(root, app) {
    this.root = root;
    this.app = app;
    this.journal = app.journal;
    this.rules = app.rules;
    this.map = app.map;
  }

  show(...children) {
    this.root.replaceChildren(...children.flat().filter(Boolean));
    this.root.scrollTop = 0;
  }

  section(title, ...children) {
    return element('section', {}, element('h3', {}, title), ...children);
  }

  entryButton(k, text = `entry ${k}`) {
    return element('button', {
      className: 'link', 'data-entry': k, onclick: () => this.app.select(k),
    }, text);
  }

  unitButton(id) {
    const { text } = this.journal.units[id];
    return element('button', {
      className: 'link', title: text, onclick: () => this.app.selectUnit(id),
    }, `unit ${text}`);
  }

  /** A label with its colour and pattern; a click shows what it may see. */
  chip(text) {
    const swatch = element('span', { className: 'swatch' });
    swatch.style.backgroundImage = this.app.colours.swatch(text);
    return element('button', {
      className: 'chip',
      title: `Show what is seen at ${text}`,
      onclick: () => this.app.choose(text),
    }, swatch, element('span', { className: 'chip-text' }, text));
  }

  showEntry(k) {
    const { journal } = this;
    const entry = journal.decode(k);
    const head = element('h2', {}, `Entry ${k}`, ' ', element('small', {},
      `line ${journal.line[k].toLocaleString('en')}`));
    const line = journal.linesOf(k)[0];
    this.show(
      head,
      element('p', {}, sentence(journal, k, entry)),
      element('p', { className: 'raw' }, longText(line)),
      this.contamination(k),
      this.viewNote(k),
      this.parts(k, entry),
      journal.effect[k] === COMMIT ? this.handed(k) : null,
      journal.effect[k] === GIVEN ? this.source(k) : null,
      this.history(k),
    );
  }

  /** What takes longer to find: the grounds of an entry, and the state of its unit. */
  addGrounds(k) {
    this.root.append(...[this.groundsSection(k), this.stateSection(k)].filter(Boolean));
  }

  contamination(k) {
    const { journal } = this;
    const id = journal.actor[k];
    if (journal.call[k] === EMITTED) return null;
    if (journal.label[k] < 0) {
      return element('p', {}, this.unitButton(id), ' doesn’t exist here.');
    }
    return element('p', {}, this.unitButton(id), ' could have read up to ',
      this.chip(journal.labelTexts[journal.label[k]]), ' before this call.');
  }

  viewNote(k) {
    const { view } = this.app.lanes;
    if (view === null) return null;
    const what = view.status[k] === STRUCK
      ? 'Nothing of this entry is left.'
      : ['', 'The whole entry stays.', 'Only what the label may read of the commit is left.'][
        view.status[k]];
    return element('p', { className: 'note' }, `At ${view.text}: ${what}`);
  }

  parts(k, entry) {
    const { view } = this.app.lanes;
    const rows = [
      ...entry.deleted.map((part) => ({ ...part, mark: 'deleted' })),
      ...entry.added, ...entry.given, ...entry.shown,
    ];
    if (rows.length === 0) return null;
    const titles = { true: 'Changes to the event', false: 'Parts that it was handed' };
    const title = entry.shown.length > 0 ? 'What it was shown' : titles[entry.given.length === 0];
    const seen = new Set(view === null ? rows : view.partsOf(k, rows));
    const items = rows.map((part) => element('li', {
      className: seen.has(part) ? '' : 'struck',
    }, this.part(part, entry.call[2])));
    return this.section(title, element('ul', { className: 'plain parts' }, ...items));
  }

  /** A part: its name and label, and below them its value and privileges. */
  part(part, nameRead) {
    return element('div', {},
      element('code', { className: 'name' }, part.name ?? nameRead), ' ', this.chip(part.label),
      element('div', {}, part.mark ?? longText(part.value, 300)),
      part.privileges?.length > 0
        ? element('div', { className: 'muted' }, `with ${part.privileges.join(', ')}`) : null);
  }

  /** Who was handed a commit's event, with which parts, and what of it was read. */
  handed(k) {
    const { journal } = this;
    const gets = [...this.map.getsOf(k)];
    const event = journal.eventText(journal.event[k]);
    if (gets.length === 0) {
      return this.section('Who was handed it', element('p', {},
        `No get was handed ${event} by this commit.`));
    }
    return this.section(`Who was handed ${event}`, longList(gets, (get) => this.receiver(get)));
  }

  receiver(get) {
    const { journal } = this;
    const names = journal.decode(get).given.map((part) => part.name);
    const reads = this.readsOf(get);
    return element('div', { className: 'receiver' },
      this.unitButton(journal.actor[get]), ' at ', this.entryButton(get), ': ',
      element('b', {}, names.join(', ')),
      element('div', { className: 'muted' }, reads.length === 0 ? 'read nothing of it' : 'read ',
        ...this.readsList(reads)));
  }

  /** The reads of a view, up to where its handle is closed. */
  readsOf(get) {
    const { journal } = this;
    const handle = journal.decode(get).reply[1];
    const places = journal.entriesOfUnit.of(journal.actor[get]);
    const reads = [];
    for (let n = firstFrom(places, get + 1); n < places.length; n += 1) {
      const place = places[n];
      const isOfHandle = journal.isAccepted(place) && OF_HANDLES.includes(journal.call[place]);
      const { call } = isOfHandle ? journal.decode(place) : { call: [] };
      if (call[1] === handle) {
        if (call[0] !== 'read') break;
        reads.push({ name: call[2], place });
      }
    }
    return reads;
  }

  source(get) {
    const { journal } = this;
    const commit = this.map.sourceOf(get);
    if (commit < 0) return null;
    const reads = this.readsOf(get);
    const maker = journal.call[commit] === EMITTED ? ['emitted at '] : [this.unitButton(
      journal.actor[commit]), ' told it at '];
    return this.section('Where it comes from',
      element('p', {}, ...maker, this.entryButton(commit), '.'),
      element('p', {}, reads.length === 0 ? 'No part of it was read.' : 'Then it read ',
        ...this.readsList(reads), reads.length === 0 ? '' : '.'));
  }

  readsList(reads) {
    return reads.flatMap(({ name, place }, n) => [n > 0 ? ', ' : '', `${name} at `,
      this.entryButton(place)]);
  }

  /** The other commits on an event. */
  history(k) {
    const { journal } = this;
    if (journal.effect[k] !== COMMIT) return null;
    const all = [...journal.commitsOfEvent.of(journal.event[k])];
    if (all.length < 2) return null;
    return this.section('All commits on this event', longList(all, (one) => (one === k
      ? element('span', {}, `entry ${one}, this one`)
      : element('span', {}, this.entryButton(one), ` by unit ${journal.units[
        journal.actor[one]].text}`))));
  }

  groundsSection(k) {
    const { grounds } = this.app.lanes;
    const count = grounds.length;
    const title = 'What it rests on';
    if (count <= 1) return this.section(title, element('p', {}, 'On no other entry.'));
    return this.section(title,
      element('p', {}, `On ${counted(count - 1, 'other entry', 'other entries')} of `
        + `${this.journal.length.toLocaleString('en')}. The orange path shows them. Without all `
        + 'the rest it would have been answered the same.'),
      longList(grounds.slice(0, -1).reverse(), (one) => element('span', {},
        this.entryButton(one), ' ', element('code', {}, this.shortLine(one))), 12));
  }

  shortLine(k) {
    const { journal } = this;
    const unit = journal.units[journal.actor[k]].text;
    return cutText(`${unit} ${shortText(journal, k, journal.decode(k))}`, 60);
  }

  stateSection(k) {
    const { journal, rules } = this;
    if (journal.call[k] === EMITTED || journal.label[k] < 0) return null;
    const id = journal.actor[k];
    const before = rules.stateBefore(id, k);
    if (before === null) return null;
    const after = rules.stateBefore(id, k + 1);
    return this.section('The state of its unit', this.stateTable(before, after));
  }

  stateTable(before, after) {
    const tags = (list) => (list.length === 0 ? 'none' : list.join(', '));
    const rows = [
      ['reads at', (s) => labelText(s.input)],
      ['writes at', (s) => labelText(s.output)],
      ['could have read', (s) => labelText(s.contamination)],
      ['holds', (s) => tags([...s.held])],
      ['secrets dropped', (s) => tags(s.dropped)],
      ['origins endorsed', (s) => tags(s.endorsed)],
      ['handles', (s) => this.handlesText(s)],
      ['made', (s) => [
        counted(s.events, 'event', 'events'), counted(s.tags, 'tag', 'tags'),
        counted(s.subs, 'subscription', 'subscriptions'), counted(s.units, 'unit', 'units'),
      ].join(', ')],
      ['was handed', (s) => counted(s.given, 'event', 'events')],
    ];
    return element('table', { className: 'state' }, ...rows.map(([name, of]) => {
      const [old, now] = [of(before), of(after)];
      return element('tr', {}, element('th', { scope: 'row' }, name), element('td', {},
        longText(old, 200), old === now ? null : element('div', { className: 'after' }, 'then ',
          longText(now, 200))));
    }));
  }

  handlesText(state) {
    if (state.handles.size === 0) return 'none';
    const numbers = [...state.handles.keys()].sort((a, b) => a - b);
    return numbers.map((h) => {
      const handle = state.handles.get(h);
      const seen = visibleIn(state.input, handle).map((part) => part.name);
      const drafted = handle.drafted.map((part) => `+${part.name}`);
      const named = handle.named.map((spot) => `-${spot.name}`);
      const parts = [...seen, ...named, ...drafted].join(' ');
      const kind = handle.isView ? 'view' : 'draft';
      return `${h}: ${kind} of ${handle.event}${parts ? ` (${parts})` : ''}`;
    }).join('; ');
  }

  showUnit(id) {
    const { journal, rules } = this;
    const unit = journal.units[id];
    const places = journal.entriesOfUnit.of(id);
    const commits = [...places].filter((k) => journal.effect[k] === COMMIT);
    const gets = [...places].filter((k) => journal.effect[k] === GIVEN);
    this.show(
      element('h2', {}, `Unit ${unit.text}`),
      element('p', {}, this.unitSentence(id)),
      this.section('What it could have read', longList(this.map.runsOf(id), (run) => element('span',
        {}, 'from ', run.from < journal.length ? this.entryButton(run.from) : 'the end', ': ',
        this.chip(journal.labelTexts[run.label])))),
      this.section('Subscriptions', rules.subscriptionsOf(id).length === 0 ? 'none' : longList(
        rules.subscriptionsOf(id), (sub) => element('span', {}, `${sub.number}: `,
          longText(sub.filter, 120), sub.isManaged ? ', by instances, ' : ' ',
          this.entryButton(sub.place)))),
      this.section(`Told ${counted(commits.length, 'event', 'events')}`, longList(commits, (k) =>
        element('span', {}, this.entryButton(k), ` ${journal.eventText(journal.event[k])}`), 12)),
      this.section(`Was handed ${counted(gets.length, 'event', 'events')}`, longList(gets, (k) =>
        element('span', {}, this.entryButton(k), ` ${journal.eventText(journal.event[k])}: `,
          journal.decode(k).given.map((part) => part.name).join(', ')), 12)),
    );
  }

  unitSentence(id) {
    const { journal } = this;
    const unit = journal.units[id];
    const acts = counted(journal.entriesOfUnit.of(id).length, 'entry', 'entries');
    if (unit.isInstance) {
      return `An instance: it serves subscription ${unit.sub} of unit ${unit.owner}. It has `
        + `${acts}.`;
    }
    if (unit.path.length > 1) {
      return `A unit that unit ${unit.path.slice(0, -1).join('.')} made. It has ${acts}.`;
    }
    return `A root: it was there from the start. It has ${acts}.`;
  }

  showJournal(name) {
    const { journal } = this;
    const count = (value) => value.toLocaleString('en');
    this.show(
      element('h2', {}, name),
      element('p', {}, `${counted(journal.length, 'entry', 'entries')} of `
        + `${counted(journal.units.length, 'unit', 'units')}, with `
        + `${counted(journal.events.length, 'event', 'events')}.`),
      element('p', { className: 'muted' }, 'This page shows what the file says. Whether the '
        + 'journal is right, ', element('code', {}, './defcon check'), ' tells.'),
      this.legend(),
      this.keys(),
      this.section('Units', longList([...journal.lanes], (id) => element('span', {},
        this.unitButton(id), ` ${count(journal.entriesOfUnit.of(id).length)}`), 24)),
    );
  }

  legend() {
    const marks = [
      ['◆', 'a commit: the unit told an event'],
      ['●', 'a get: the unit was handed an event'],
      ['◉', 'a read of parts'],
      ['◇', 'dashed: emitted, what a label sees of another’s commit'],
      ['■', 'a change of labels'],
      ['○', 'a subscription, or a unit made'],
      ['×', 'refused, or nothing there'],
      ['•', 'another call'],
    ];
    return this.section('How to read it',
      element('p', {}, 'A lane for each unit; time runs down, an entry a row. The colour and '
        + 'pattern of a lane are the label up to which the unit could have read. An arrow leads '
        + 'from a commit to each get that was handed its event. The squares are the labels of its '
        + 'parts.'),
      element('table', { className: 'legend' }, ...marks.map(([mark, text]) => element('tr', {},
        element('th', {}, mark), element('td', {}, text)))));
  }

  keys() {
    const keys = [
      ['↑ ↓', 'the entry above, below'],
      ['Shift ↑ ↓', 'the same unit’s entry above, below'],
      ['← →', 'the lane to the left, right'],
      ['Enter', 'from a commit to its get, and back'],
      ['Home End', 'first, last entry'],
      ['+ − 0', 'zoom in, out, the whole'],
      ['/', 'find'],
      ['Esc', 'back: selection, then label'],
    ];
    const rows = keys.map(([key, text]) => element('tr', {}, element('th', {}, key),
      element('td', {}, text)));
    return this.section('Keys', element('table', { className: 'legend' }, ...rows));
  }
}

// The page: reads the journal that is in it, and ties lanes, strip, panel and keys together.
import { Refused } from './grammar.js';
import { COMMIT, firstFrom, GIVEN, readJournal } from './journal.js';
import { typedLabel } from './labels.js';
import { LabelView } from './label_view.js';
import { Rules } from './rules.js';
import { LaneMap } from './lane_map.js';
import { Colours } from './colours.js';
import { Lanes, readingRow } from './lanes.js';
import { Overview } from './overview.js';
import { Header } from './header.js';
import { Panel } from './panel.js';
import { entriesWith, namedBy } from './find.js';
import { byId, element } from './dom.js';
import { counted, sentence } from './words.js';

const MOST_CHIPS = 60;
const ZOOM = 1.5;
const LONG = 200000;
const PAUSE = 150;

/** The bytes that a script element holds, in base 64. */
function bytesIn(id) {
  const text = atob(byId(id).textContent.trim());
  return Uint8Array.from({ length: text.length }, (_, k) => text.charCodeAt(k));
}

async function unzipped(bytes) {
  const stream = new Blob([bytes]).stream().pipeThrough(new DecompressionStream('gzip'));
  return new Uint8Array(await new Response(stream).arrayBuffer());
}

class App {
  constructor(journal, name) {
    this.journal = journal;
    this.name = name;
    this.rules = new Rules(journal);
    this.map = new LaneMap(journal, this.rules);
    this.colours = new Colours(journal);
    this.lanes = new Lanes(byId('lanes'), journal, this.map, this.colours);
    this.overview = new Overview(byId('overview'), this.lanes);
    this.header = new Header(byId('heads'), this);
    this.panel = new Panel(byId('panel'), this);
    // For those who test the page: how long each frame took, and the reader of journals.
    this.frames = [];
    this.read = readJournal;
    this.listen();
    this.panel.showJournal(name);
    this.applyTheme();
    this.resize();
    this.lanes.zoomTo(readingRow(this.lanes), 0);
  }

  listen() {
    this.listenToCanvas();
    this.listenToOverview();
    this.listenToFind();
    document.addEventListener('keydown', (event) => this.onKey(event));
    new ResizeObserver(() => this.resize()).observe(byId('lanes').parentElement);
    matchMedia('(prefers-color-scheme: dark)').addEventListener('change', () => this.applyTheme());
    byId('zoom-in').onclick = () => this.zoom(ZOOM);
    byId('zoom-out').onclick = () => this.zoom(1 / ZOOM);
    byId('whole').onclick = () => this.showWhole();
    byId('rows').onclick = () => this.showRows();
    byId('theme').onclick = () => this.nextTheme();
    byId('help').onclick = () => this.panel.showJournal(this.name);
  }

  listenToCanvas() {
    const canvas = byId('lanes');
    canvas.addEventListener('wheel', (event) => this.onWheel(event), { passive: false });
    canvas.addEventListener('pointermove', (event) => this.onMove(event));
    canvas.addEventListener('pointerleave', () => this.hover(-1));
    canvas.addEventListener('pointerdown', (event) => this.onDown(event));
    canvas.addEventListener('pointerup', (event) => this.onUp(event));
    canvas.addEventListener('pointercancel', () => { this.drag = null; });
    canvas.addEventListener('dblclick', (event) => this.zoom(8, event.offsetY));
  }

  listenToOverview() {
    const strip = byId('overview');
    const go = (event) => {
      this.lanes.top = this.overview.entryAt(event.offsetY) - this.lanes.rows / 2;
      this.lanes.settle();
      this.redraw();
    };
    strip.addEventListener('pointerdown', (event) => {
      strip.setPointerCapture(event.pointerId);
      go(event);
    });
    strip.addEventListener('pointermove', (event) => { if (event.buttons > 0) go(event); });
  }

  listenToFind() {
    const field = byId('find');
    field.addEventListener('input', () => {
      clearTimeout(this.finding);
      this.finding = setTimeout(() => this.find(field.value.trim()), 120);
    });
    field.addEventListener('keydown', (event) => {
      if (event.key === 'Enter') this.nextFound(event.shiftKey ? -1 : 1);
      if (event.key === 'Escape') {
        byId('hits').hidden = true;
        field.blur();
      }
      event.stopPropagation();
    });
  }

  resize() {
    this.lanes.resize();
    this.overview.resize();
    this.redraw();
  }

  /** Draws with the next frame, once however often it is asked for. */
  redraw() {
    if (this.isWaiting) return;
    this.isWaiting = true;
    requestAnimationFrame(() => {
      this.isWaiting = false;
      const begin = performance.now();
      this.lanes.draw();
      this.overview.draw();
      this.header.draw();
      this.frames.push(performance.now() - begin);
      if (this.frames.length > 1000) this.frames.shift();
    });
  }

  zoom(factor, y) {
    this.lanes.zoom(factor, y);
    this.redraw();
  }

  showWhole() {
    this.lanes.whole();
    this.redraw();
  }

  showRows() {
    const { lanes } = this;
    lanes.zoomTo(readingRow(lanes), lanes.selected >= 0 ? lanes.selected : undefined);
    this.redraw();
  }

  onWheel(event) {
    event.preventDefault();
    const unit = event.deltaMode === 1 ? 24 : 1;
    if (event.ctrlKey || event.metaKey) {
      this.zoom(Math.exp(-event.deltaY * unit * 0.004), event.offsetY);
      return;
    }
    const across = event.shiftKey ? event.deltaY : event.deltaX;
    this.lanes.scrollBy(across * unit, event.shiftKey ? 0 : event.deltaY * unit);
    this.redraw();
  }

  onDown(event) {
    byId('hits').hidden = true;
    this.drag = { x: event.clientX, y: event.clientY, isMoved: false };
    byId('lanes').setPointerCapture(event.pointerId);
  }

  onMove(event) {
    if (!this.drag) {
      this.hover(this.lanes.entryAt(event.offsetX, event.offsetY), event);
      return;
    }
    const across = event.clientX - this.drag.x;
    const down = event.clientY - this.drag.y;
    if (!this.drag.isMoved && Math.abs(across) + Math.abs(down) < 5) return;
    this.drag = { x: event.clientX, y: event.clientY, isMoved: true };
    this.lanes.scrollBy(-across, -down);
    this.redraw();
  }

  onUp(event) {
    const isClick = this.drag && !this.drag.isMoved;
    this.drag = null;
    if (isClick) this.select(this.lanes.entryAt(event.offsetX, event.offsetY));
  }

  hover(k, event) {
    const tip = byId('tip');
    tip.hidden = k < 0 || !event;
    if (k !== this.lanes.hovered) {
      this.lanes.hovered = k;
      if (k >= 0) tip.textContent = this.tipOf(k);
      this.redraw();
    }
    if (tip.hidden) return;
    const x = Math.min(event.offsetX + 14, this.lanes.width - tip.offsetWidth - 8);
    tip.style.transform = `translate(${Math.max(8, x)}px, ${event.offsetY + 18}px)`;
  }

  tipOf(k) {
    const text = `${k.toLocaleString('en')}: ${sentence(this.journal, k, this.journal.decode(k))}`;
    return text.length > 200 ? `${text.slice(0, 199)}…` : text;
  }

  /** Shows an entry, in the lanes and in the panel. */
  select(k) {
    if (k < 0 || k >= this.journal.length) return;
    const { lanes } = this;
    lanes.selected = k;
    lanes.unit = -1;
    lanes.setGrounds(new Uint32Array(0));
    lanes.show(k);
    this.panel.showEntry(k);
    this.showGrounds(k);
    byId('said').textContent = `Entry ${k}. ${sentence(this.journal, k, this.journal.decode(k))}`;
    this.redraw();
  }

  /** What an entry rests on; of a long journal only once nobody goes on. */
  showGrounds(k) {
    const show = () => {
      this.lanes.setGrounds(this.rules.grounds(k));
      this.panel.addGrounds(k);
      this.redraw();
    };
    clearTimeout(this.later);
    if (this.journal.length < LONG) show();
    else this.later = setTimeout(show, PAUSE);
  }

  selectUnit(id) {
    const { lanes } = this;
    clearTimeout(this.later);
    lanes.unit = id;
    lanes.selected = -1;
    lanes.setGrounds(new Uint32Array(0));
    lanes.showLane(this.journal.laneOf[id]);
    this.panel.showUnit(id);
    this.redraw();
  }

  /** What is seen at a label; the same label again, or none, shows all. */
  choose(text) {
    const label = text === null ? null : typedLabel(text);
    const isSame = this.lanes.view !== null && this.lanes.view.text === text;
    this.lanes.view = label === null || isSame ? null : new LabelView(this.journal, label);
    this.drawLabels();
    this.overview.redraw();
    if (this.lanes.selected >= 0) this.select(this.lanes.selected);
    this.redraw();
  }

  /** Back to the whole journal: first from what is selected, then from the label. */
  clear() {
    clearTimeout(this.later);
    if (this.lanes.selected < 0 && this.lanes.unit < 0) this.choose(null);
    this.lanes.selected = -1;
    this.lanes.unit = -1;
    this.lanes.setGrounds(new Uint32Array(0));
    this.panel.showJournal(this.name);
    this.redraw();
  }

  /** The labels as buttons, and the sentence about the one that is chosen. */
  drawLabels() {
    const { colours, journal } = this;
    const { view } = this.lanes;
    const texts = colours.order.slice(0, MOST_CHIPS).map((id) => journal.labelTexts[id]);
    if (view !== null && !texts.includes(view.text)) texts.unshift(view.text);
    const left = colours.order.length - MOST_CHIPS;
    byId('labels').replaceChildren(
      element('span', { className: 'bar-title' }, 'Seen at:'),
      this.labelButton(null, view === null),
      ...texts.map((text) => this.labelButton(text, view !== null && view.text === text)),
      left > 0 ? element('span', { className: 'muted' }, `and ${left} more: find one by its text`)
        : '',
    );
    byId('told').textContent = view === null ? '' : view.summary().join(' ');
    byId('told').hidden = view === null;
  }

  labelButton(text, isPressed) {
    const swatch = element('span', { className: 'swatch' });
    if (text !== null) swatch.style.backgroundImage = this.colours.swatch(text);
    const button = element('button', { className: 'chip', onclick: () => this.choose(text) },
      text === null ? '' : swatch,
      element('span', { className: 'chip-text' }, text ?? 'every label'));
    button.setAttribute('aria-pressed', String(isPressed));
    return button;
  }

  find(text) {
    const { lanes, journal } = this;
    const named = text === '' ? [] : namedBy(journal, text);
    lanes.found = entriesWith(journal, text);
    byId('hits').hidden = text === '';
    byId('hits').replaceChildren(
      ...named.map((one) => element('button', { onclick: () => this.go(one) }, one.words)),
      element('span', {}, lanes.found.length === 0 ? 'no entry has this text' : counted(
        lanes.found.length, 'entry has', 'entries have') + ' this text; Enter goes to the next'),
    );
    this.named = named;
    this.redraw();
  }

  go(one) {
    byId('hits').hidden = true;
    if (one.kind === 'label') this.choose(one.label);
    if (one.kind === 'unit') this.selectUnit(one.unit);
    if (one.kind === 'entry') this.select(one.entry);
  }

  /** The next or last entry that was found; what is named by itself comes first. */
  nextFound(step) {
    clearTimeout(this.finding);
    if (this.foundText !== byId('find').value.trim()) {
      this.foundText = byId('find').value.trim();
      this.find(this.foundText);
      if (this.named.length > 0) {
        this.go(this.named[0]);
        return;
      }
    }
    const { found, selected } = this.lanes;
    if (found.length === 0) return;
    byId('hits').hidden = true;
    const at = step > 0 ? firstFrom(found, selected + 1) : firstFrom(found, selected) - 1;
    this.select(found[(at + found.length) % found.length]);
  }

  onKey(event) {
    if (event.ctrlKey || event.metaKey || event.altKey) return;
    if (event.target.tagName === 'INPUT' || event.target.id === 'panel') return;
    const isButton = event.target.tagName === 'BUTTON';
    if (isButton && (event.key === 'Enter' || event.key === ' ')) return;
    const act = this.keys()[event.shiftKey && event.key.startsWith('Arrow')
      ? `Shift${event.key}` : event.key];
    if (!act) return;
    event.preventDefault();
    act();
  }

  keys() {
    const { lanes, journal } = this;
    const page = Math.max(1, Math.floor(lanes.rows) - 2);
    return {
      ArrowDown: () => this.step(1),
      ArrowUp: () => this.step(-1),
      ShiftArrowDown: () => this.stepInUnit(1),
      ShiftArrowUp: () => this.stepInUnit(-1),
      ArrowRight: () => this.stepAcross(1),
      ArrowLeft: () => this.stepAcross(-1),
      PageDown: () => this.scroll(page),
      PageUp: () => this.scroll(-page),
      Home: () => this.select(0),
      End: () => this.select(journal.length - 1),
      Enter: () => this.follow(),
      Escape: () => this.clear(),
      '+': () => this.zoom(ZOOM),
      '=': () => this.zoom(ZOOM),
      '-': () => this.zoom(1 / ZOOM),
      0: () => this.showWhole(),
      1: () => this.showRows(),
      '/': () => byId('find').focus(),
    };
  }

  /** The selected entry, or the first in sight. */
  get here() {
    const { lanes } = this;
    return lanes.selected >= 0 ? lanes.selected : Math.floor(lanes.top);
  }

  scroll(rows) {
    this.lanes.top += rows;
    this.lanes.settle();
    this.redraw();
  }

  step(by) {
    if (this.lanes.selected < 0) this.select(this.here);
    else this.select(Math.max(0, Math.min(this.journal.length - 1, this.here + by)));
  }

  stepInUnit(by) {
    const { journal, here } = this;
    const id = this.lanes.unit >= 0 ? this.lanes.unit : journal.actor[here];
    const places = journal.entriesOfUnit.of(id);
    const at = by > 0 ? firstFrom(places, here + 1) : firstFrom(places, here) - 1;
    if (at >= 0 && at < places.length) this.select(places[at]);
  }

  /** The nearest entry of the next lane to a side that has any. */
  stepAcross(by) {
    const { journal, here } = this;
    let lane = this.lanes.laneOf(here) + by;
    while (lane >= 0 && lane < journal.lanes.length) {
      const places = journal.entriesOfUnit.of(journal.lanes[lane]);
      if (places.length > 0) {
        const at = Math.min(firstFrom(places, here), places.length - 1);
        const isAboveNearer = at > 0 && here - places[at - 1] < Math.abs(places[at] - here);
        this.select(places[isAboveNearer ? at - 1 : at]);
        return;
      }
      lane += by;
    }
  }

  /** From a commit to its first get, and from a get to its commit. */
  follow() {
    const { journal, here } = this;
    if (journal.effect[here] === GIVEN) this.select(this.map.sourceOf(here));
    else if (journal.effect[here] === COMMIT) {
      const [first] = this.map.getsOf(here);
      if (first !== undefined) this.select(first);
    }
  }

  applyTheme() {
    const isDark = matchMedia('(prefers-color-scheme: dark)').matches;
    const chosen = document.documentElement.dataset.theme;
    this.colours.setTheme(chosen ?? (isDark ? 'dark' : 'light'));
    this.drawLabels();
    this.overview.resize();
    this.redraw();
  }

  nextTheme() {
    const isDark = this.colours.theme.page !== '#ffffff';
    document.documentElement.dataset.theme = isDark ? 'light' : 'dark';
    this.applyTheme();
    if (this.lanes.selected >= 0) this.select(this.lanes.selected);
  }
}

/** Says that the file is no journal, with the lines about the first bad one, as text. */
function refuse(bytes, refused, name) {
  const lines = [];
  let from = 0;
  for (let line = 1; line <= refused.line && from <= bytes.length; line += 1) {
    const end = bytes.indexOf(10, from);
    const until = end < 0 ? bytes.length : end;
    if (line >= refused.line - 3) lines.push({ line, from, until });
    from = until + 1;
  }
  const decoder = new TextDecoder();
  const shown = lines.map(({ line, from: start, until }) => element('tr', {
    className: line === refused.line ? 'bad' : '',
  }, element('th', { scope: 'row' }, String(line)), element('td', {}, element('code', {},
    decoder.decode(bytes.subarray(start, Math.min(until, start + 2000)))))));
  const kind = refused.kind === 'too large' ? 'a value in it is too large'
    : 'no journal goes on like this';
  byId('loading').replaceChildren(
    element('h1', {}, `${name} isn’t a whole journal`),
    element('p', {}, `Line ${refused.line} is the first bad one: ${kind}.`),
    element('table', { className: 'lines' }, ...shown),
  );
  document.body.dataset.state = 'refused';
}

async function begin() {
  const name = new TextDecoder().decode(bytesIn('name')).split('/').pop() || 'journal';
  document.title = `${name} · DEFCon`;
  byId('file').textContent = name;
  let bytes = new Uint8Array(0);
  try {
    bytes = await unzipped(bytesIn('journal'));
    const journal = await readJournal(bytes, async (share) => {
      byId('progress').value = share;
      await new Promise((go) => { setTimeout(go); });
    });
    document.body.dataset.state = 'ready';
    window.look = new App(journal, name);
  } catch (error) {
    if (!(error instanceof Refused)) throw error;
    window.look = { refused: { line: error.line, kind: error.kind } };
    refuse(bytes, error, name);
  }
}

begin().catch((error) => {
  byId('loading').textContent = `This page can’t show its journal: ${error.message}`;
  document.body.dataset.state = 'failed';
});

// The lanes: a column for each unit, time downwards, drawn on a canvas. Only what is in sight is
// drawn: each entry where rows are high enough, and counts for each line of pixels where not.
import { ACCEPTED, CALLS, EMITTED } from './grammar.js';
import { COMMIT, firstFrom, GIVEN } from './journal.js';
import { Counts } from './counts.js';
import { SHOWN_AS_EMITTED, STRUCK } from './label_view.js';
import { cutText, shortestText, shortText } from './words.js';

export const GUTTER = 56;
const RAIL = 20;
const RAIL_WIDTH = 8;
const BESIDE = 9;
const TEXT = 31;
const ROW = 22;
const MOST_ROW = 36;
const LEAST_TEXT_ROW = 14;
const LEAST_MARK_ROW = 2;
const LEAST_LANE = 34;
const LEAST_MAP_LANE = 8;
const NARROW_TEXT = 110;
const MOST_LANE = 300;
const MOST_ARROWS = 2500;
const MOST_SWATCHES = 8;
const FADED = 0.42;
const MONO = 'ui-monospace, SFMono-Regular, Menlo, Consolas, "DejaVu Sans Mono", monospace';
const SANS = 'system-ui, -apple-system, "Segoe UI", "DejaVu Sans", sans-serif';

const clamp = (number, least, most) => Math.max(least, Math.min(most, number));

export class Lanes {
  constructor(canvas, journal, map, colours) {
    this.canvas = canvas;
    this.pen = canvas.getContext('2d');
    this.journal = journal;
    this.map = map;
    this.colours = colours;
    this.top = 0;
    this.left = 0;
    this.height = 0;
    this.row = ROW;
    this.selected = -1;
    this.hovered = -1;
    this.unit = -1;
    this.view = null;
    this.grounds = new Uint32Array(0);
    this.found = new Uint32Array(0);
    this.counts = new Counts(this);
    this.resize();
  }

  resize() {
    const { width, height } = this.canvas.getBoundingClientRect();
    const scale = window.devicePixelRatio || 1;
    const isWhole = this.height > 0 && this.row <= this.least;
    this.width = width;
    this.height = height;
    if (isWhole) this.row = this.least;
    this.canvas.width = Math.round(width * scale);
    this.canvas.height = Math.round(height * scale);
    this.pen.setTransform(scale, 0, 0, scale, 0, 0);
    this.settle();
  }

  get least() {
    return Math.min(ROW, (this.height - 8) / Math.max(1, this.journal.length));
  }

  get lane() {
    const least = this.row < LEAST_MARK_ROW ? LEAST_MAP_LANE : LEAST_LANE;
    const room = (this.width - GUTTER - 8) / Math.max(1, this.journal.lanes.length);
    return clamp(room, least, MOST_LANE);
  }

  get isMap() {
    return this.row < LEAST_MARK_ROW;
  }

  /** How many entries are in sight. */
  get rows() {
    return this.height / this.row;
  }

  /** Keeps the picture within the journal. */
  settle() {
    this.row = clamp(this.row, this.least, MOST_ROW);
    this.top = clamp(this.top, 0, Math.max(0, this.journal.length - this.rows + 1));
    const width = this.lane * this.journal.lanes.length + GUTTER + 8;
    this.left = clamp(this.left, 0, Math.max(0, width - this.width));
  }

  scrollBy(across, down) {
    this.left += across;
    this.top += down / this.row;
    this.settle();
  }

  /** Zooms about a height on the canvas. */
  zoom(factor, y = this.height / 2) {
    const at = this.top + y / this.row;
    this.row = clamp(this.row * factor, this.least, MOST_ROW);
    this.top = at - y / this.row;
    this.settle();
  }

  zoomTo(row, entry = this.top + this.rows / 2) {
    this.row = row;
    this.settle();
    this.top = entry - this.rows / 2;
    this.settle();
  }

  whole() {
    this.zoomTo(0);
  }

  /** Scrolls until an entry is in sight, with its lane. */
  show(k) {
    if (k < this.top + 1 || k > this.top + this.rows - 3) this.top = k - this.rows / 3;
    this.showLane(this.laneOf(k));
  }

  showLane(lane) {
    const x = lane * this.lane;
    if (x < this.left || x + this.lane > this.left + this.width - GUTTER) {
      this.left = x - (this.width - GUTTER - this.lane) / 2;
    }
    this.settle();
  }

  laneOf(k) {
    return this.journal.laneAt[k];
  }

  x(lane) {
    return GUTTER + lane * this.lane - this.left;
  }

  y(entry) {
    return (entry - this.top) * this.row;
  }

  /** The lanes in sight, as the first and the one behind the last. */
  lanesInSight() {
    const first = Math.max(0, Math.floor(this.left / this.lane));
    const count = Math.ceil((this.width - GUTTER) / this.lane) + 1;
    return [first, Math.min(this.journal.lanes.length, first + count)];
  }

  entriesInSight() {
    const first = Math.max(0, Math.floor(this.top));
    return [first, Math.min(this.journal.length, Math.ceil(this.top + this.rows))];
  }

  /** The entry at a point; where rows are low, the nearest of that lane, a commit before others. */
  entryAt(x, y) {
    const { journal } = this;
    const at = Math.floor(this.top + y / this.row);
    if (at < 0 || at >= journal.length) return -1;
    if (this.row >= LEAST_TEXT_ROW) return at;
    const lane = Math.floor((x - GUTTER + this.left) / this.lane);
    if (x < GUTTER || lane < 0 || lane >= journal.lanes.length) return at;
    const places = journal.entriesOfUnit.of(journal.lanes[lane]);
    const reach = Math.max(1, 6 / this.row);
    const near = places.subarray(firstFrom(places, at - reach), firstFrom(places, at + reach));
    const worth = (k) => (journal.effect[k] === COMMIT ? 0 : 1) * reach + Math.abs(k - at);
    return near.reduce((best, k) => (best < 0 || worth(k) < worth(best) ? k : best), -1);
  }

  draw() {
    const { pen, colours } = this;
    pen.globalAlpha = 1;
    pen.fillStyle = colours.theme.page;
    pen.fillRect(0, 0, this.width, this.height);
    this.drawRowLight();
    pen.save();
    pen.beginPath();
    pen.rect(GUTTER, 0, this.width, this.height);
    pen.clip();
    this.drawBands();
    if (this.isMap) this.counts.draw();
    else {
      this.drawArrows();
      this.drawMarks();
    }
    this.drawGrounds();
    this.drawSelected();
    pen.restore();
    this.drawGutter();
  }

  drawRowLight() {
    const { pen, colours } = this;
    const height = Math.max(this.row, 2);
    if (this.hovered >= 0 && !this.isMap) {
      pen.fillStyle = colours.theme.hover;
      pen.fillRect(0, this.y(this.hovered), this.width, height);
    }
    if (this.selected >= 0) {
      pen.fillStyle = colours.theme.select;
      pen.fillRect(0, this.y(this.selected), this.width, height);
    }
  }

  /** A run of a lane whose unit the view's label may not see. */
  isBeyond(label) {
    return this.view !== null && !this.view.isWithin(label);
  }

  drawBands() {
    const [first, end] = this.lanesInSight();
    for (let lane = first; lane < end; lane += 1) {
      const runs = this.map.runsOf(this.journal.lanes[lane]);
      runs.forEach((run, n) => {
        const until = n + 1 < runs.length ? runs[n + 1].from : this.journal.length;
        this.drawRun(lane, run, until, n > 0);
      });
      this.drawLaneEdge(lane);
    }
  }

  drawRun(lane, run, until, isChange) {
    const from = Math.max(-4, this.y(run.from));
    const to = Math.min(this.height + 4, this.y(until));
    if (to < 0 || from > this.height) return;
    const { pen, colours } = this;
    const text = this.journal.labelTexts[run.label];
    const x = this.x(lane);
    const gap = this.lane > 24 ? 3 : 1;
    const isBeyond = this.isBeyond(run.label);
    pen.globalAlpha = isBeyond ? colours.theme.band / 3 : colours.theme.band;
    pen.fillStyle = colours.strong(text);
    pen.fillRect(x + gap, from, this.lane - 2 * gap, to - from);
    pen.globalAlpha = isBeyond ? 0.25 : 1;
    const rail = this.railOf(x);
    pen.fillStyle = colours.fill(pen, text, rail.x, this.y(0) % 8);
    pen.fillRect(rail.x, from, rail.width, to - from);
    pen.globalAlpha = 1;
    if (isChange && this.y(run.from) > -20) this.drawChange(x, this.y(run.from), text);
    if (this.unit === this.journal.lanes[lane]) this.outlineLane(x, from, to, text);
  }

  railOf(x) {
    if (this.lane < 24) return { x: x + 1, width: Math.max(2, this.lane * 0.3) };
    const isThin = !this.isMap && this.row < LEAST_TEXT_ROW;
    const width = isThin ? RAIL_WIDTH / 2 : RAIL_WIDTH;
    return { x: x + RAIL - width / 2, width };
  }

  /** A line where a unit's contamination changes, with the new label. */
  drawChange(x, y, text) {
    const { pen, colours } = this;
    pen.fillStyle = colours.strong(text);
    pen.fillRect(x + 3, y - 1, this.lane - 6, 2);
    if (this.lane < 90 || this.row < LEAST_TEXT_ROW) return;
    pen.font = `600 11px ${MONO}`;
    const shown = cutText(text, Math.floor((this.lane - TEXT - 8) / 7));
    const width = pen.measureText(shown).width + 10;
    pen.fillRect(x + this.lane - width - 3, y - 8, width, 16);
    pen.fillStyle = colours.theme.page;
    pen.textBaseline = 'middle';
    pen.fillText(shown, x + this.lane - width + 2, y + 0.5);
  }

  outlineLane(x, from, to, text) {
    const { pen, colours } = this;
    pen.strokeStyle = colours.strong(text);
    pen.lineWidth = 2;
    pen.strokeRect(x + 2, from - 4, this.lane - 4, to - from + 8);
  }

  drawLaneEdge(lane) {
    if (this.lane < 24) return;
    const { pen, colours } = this;
    pen.fillStyle = colours.theme.line;
    pen.fillRect(this.x(lane) - 0.5, 0, 1, this.height);
  }

  isFaded(k) {
    return this.view !== null && this.view.status[k] === STRUCK;
  }

  drawArrows() {
    const { journal } = this;
    const [first, end] = this.entriesInSight();
    let left = MOST_ARROWS;
    for (let k = first; k < end && left > 0; k += 1) {
      if (journal.effect[k] === GIVEN) {
        this.drawArrow(k);
        left -= 1;
      }
      if (journal.effect[k] === COMMIT) left -= this.drawArrowsBeyond(k, end, left);
    }
  }

  /** The arrows of a commit to gets below what is in sight. */
  drawArrowsBeyond(commit, end, most) {
    const gets = this.map.getsOf(commit);
    const below = gets.subarray(firstFrom(gets, end)).subarray(0, most);
    below.forEach((get) => this.drawArrow(get));
    return below.length;
  }

  drawArrow(get) {
    const commit = this.map.sourceOf(get);
    if (commit < 0) return;
    const { pen, colours } = this;
    pen.globalAlpha = this.isFaded(get) || this.isFaded(commit) ? 0.12 : 0.85;
    pen.strokeStyle = colours.ofId(this.map.carriedBy(get));
    pen.fillStyle = pen.strokeStyle;
    pen.lineWidth = this.row < LEAST_TEXT_ROW ? 1 : 1.5;
    this.traceArrow(commit, get);
    pen.stroke();
    this.drawHead(get);
    pen.globalAlpha = 1;
  }

  /** Down from the commit, along its row's edge, down beside the reader's rail, to its mark. */
  traceArrow(commit, get) {
    const { pen } = this;
    const fromX = this.markX(commit);
    const fromY = clamp(this.y(commit + 0.5), -60, this.height + 60);
    const edge = clamp(this.y(commit + 1), -50, this.height + 50);
    const downX = this.x(this.laneOf(get)) + 5 + (this.journal.event[get] % 3) * 3;
    const toY = clamp(this.y(get + 0.5), -60, this.height + 60);
    const bend = Math.min(6, Math.abs(toY - edge) / 2, Math.abs(downX - fromX) / 2);
    pen.beginPath();
    pen.moveTo(fromX, fromY);
    pen.lineTo(fromX, edge);
    pen.arcTo(downX, edge, downX, toY, bend);
    pen.arcTo(downX, toY, this.markX(get), toY, Math.min(bend, 4));
    pen.lineTo(this.markX(get) - this.markSize() - 1, toY);
  }

  drawHead(get) {
    const { pen } = this;
    const size = this.row < LEAST_TEXT_ROW ? 2.5 : 4.5;
    const x = this.markX(get) - this.markSize();
    const y = this.y(get + 0.5);
    pen.beginPath();
    pen.moveTo(x, y);
    pen.lineTo(x - size * 1.3, y - size);
    pen.lineTo(x - size * 1.3, y + size);
    pen.fill();
  }

  markX(k) {
    const x = this.x(this.laneOf(k));
    if (this.lane < 24) return x + this.lane / 2;
    return this.row < LEAST_TEXT_ROW && !this.isMap ? x + RAIL + BESIDE : x + RAIL;
  }

  markSize() {
    return clamp(this.row * 0.26, 1.8, 6);
  }

  drawMarks() {
    const [first, end] = this.entriesInSight();
    for (let k = first; k < end; k += 1) {
      const x = this.x(this.laneOf(k));
      if (x > this.width || x + this.lane < GUTTER) continue;
      this.pen.globalAlpha = this.isFaded(k) ? FADED : 1;
      this.drawMark(k);
      if (this.row >= LEAST_TEXT_ROW && this.lane >= 64) this.drawText(k, x);
      this.pen.globalAlpha = 1;
    }
  }

  /** The colour of an entry's mark: its unit's contamination. */
  markColour(k) {
    const { journal, colours } = this;
    if (journal.call[k] === EMITTED) return colours.theme.ink;
    return journal.label[k] < 0 ? colours.theme.muted : colours.ofId(journal.label[k]);
  }

  isDrawnAsEmitted(k) {
    return this.journal.call[k] === EMITTED
      || (this.view !== null && this.view.status[k] === SHOWN_AS_EMITTED);
  }

  drawMark(k) {
    const { pen, journal, colours } = this;
    const size = this.markSize();
    const x = this.markX(k);
    const y = this.y(k + 0.5);
    pen.fillStyle = colours.theme.page;
    if (this.row >= LEAST_TEXT_ROW) this.fillDisc(x, y, size + 2.5);
    pen.strokeStyle = this.markColour(k);
    pen.fillStyle = pen.strokeStyle;
    pen.lineWidth = Math.min(2, size / 2);
    if (this.isDrawnAsEmitted(k)) this.drawDiamond(x, y, size * 1.25, false);
    else if (journal.effect[k] === COMMIT) this.drawDiamond(x, y, size * 1.25, true);
    else if (journal.effect[k] === GIVEN) this.drawDisc(x, y, size, true);
    else if (journal.reply[k] >= ACCEPTED) this.drawCross(x, y, size * 0.7);
    else this.drawCallMark(CALLS[journal.call[k]], x, y, size);
  }

  fillDisc(x, y, size) {
    this.pen.beginPath();
    this.pen.arc(x, y, size, 0, 2 * Math.PI);
    this.pen.fill();
  }

  drawCallMark(name, x, y, size) {
    const { pen, colours } = this;
    if (name === 'read') {
      this.drawDisc(x, y, size, false);
      this.drawDisc(x, y, size * 0.4, true);
    } else if (name === 'out' || name === 'inout') {
      pen.fillRect(x - size, y - size, 2 * size, 2 * size);
      pen.fillStyle = colours.theme.page;
      pen.fillRect(x - size, y - size / 4, 2 * size, size / 2);
    } else if (name === 'spawn' || name === 'sub' || name === 'msub') {
      this.drawDisc(x, y, size, false);
    } else this.drawDisc(x, y, size * 0.6, true);
  }

  drawDisc(x, y, size, isFull) {
    const { pen, colours } = this;
    const colour = pen.fillStyle;
    pen.beginPath();
    pen.arc(x, y, size, 0, 2 * Math.PI);
    if (!isFull) pen.fillStyle = colours.theme.page;
    pen.fill();
    if (!isFull) pen.stroke();
    pen.fillStyle = colour;
  }

  drawDiamond(x, y, size, isFull) {
    const { pen, colours } = this;
    pen.beginPath();
    pen.moveTo(x, y - size);
    pen.lineTo(x + size, y);
    pen.lineTo(x, y + size);
    pen.lineTo(x - size, y);
    pen.closePath();
    if (!isFull) pen.fillStyle = colours.theme.page;
    pen.fill();
    if (isFull) return;
    pen.setLineDash([3, 2]);
    pen.stroke();
    pen.setLineDash([]);
  }

  drawCross(x, y, size) {
    const { pen } = this;
    pen.beginPath();
    pen.moveTo(x - size, y - size);
    pen.lineTo(x + size, y + size);
    pen.moveTo(x + size, y - size);
    pen.lineTo(x - size, y + size);
    pen.stroke();
  }

  drawText(k, x) {
    const { pen, journal, colours } = this;
    const entry = journal.decode(k);
    const swatches = this.swatchesOf(k, entry);
    const room = this.lane - TEXT - 4 - swatches.length * 11;
    const isWeighty = journal.effect[k] !== 0 || CALLS[journal.call[k]] === 'read';
    pen.font = `${isWeighty ? '600 ' : ''}${this.lane < 140 ? 11 : 12.5}px ${MONO}`;
    pen.textBaseline = 'middle';
    pen.fillStyle = isWeighty ? colours.theme.ink : colours.theme.muted;
    const y = this.y(k + 0.5);
    const most = Math.floor(room / pen.measureText('0').width);
    const shown = this.textFor(k, entry, Math.max(1, most));
    pen.fillText(shown, x + TEXT, y + 0.5);
    const width = pen.measureText(shown).width;
    if (this.isFaded(k)) pen.fillRect(x + TEXT, y, width, 1);
    swatches.forEach((label, n) => this.drawSwatch(label, x + TEXT + width + 7 + n * 11, y));
  }

  /** An entry's text for so many characters. */
  textFor(k, entry, most) {
    const { journal } = this;
    const text = this.isDrawnAsEmitted(k) ? `emitted ${entry.event}` : shortText(journal, k, entry);
    const isWeighty = journal.effect[k] !== 0 || journal.reply[k] >= ACCEPTED;
    const isTooLong = text.length > most && (this.lane < NARROW_TEXT || isWeighty);
    return cutText(isTooLong ? shortestText(journal, k, entry) : text, most);
  }

  /** The labels of the parts that an entry adds or is handed, as far as the view shows them. */
  swatchesOf(k, entry) {
    const parts = this.journal.effect[k] === COMMIT ? entry.added : entry.given;
    const shown = this.view === null ? parts : this.view.partsOf(k, parts);
    const room = Math.floor((this.lane - TEXT - 44) / 11);
    return shown.slice(0, clamp(room, 1, MOST_SWATCHES)).map((part) => part.label);
  }

  drawSwatch(label, x, y) {
    const { pen, colours } = this;
    pen.fillStyle = colours.fill(pen, label, x, y - 4);
    pen.fillRect(x, y - 4, 8, 8);
    pen.strokeStyle = colours.strong(label);
    pen.lineWidth = 1;
    pen.strokeRect(x + 0.5, y - 3.5, 7, 7);
  }

  /** The path on which the selected entry rests: along the lanes, and from commits to gets. */
  drawGrounds() {
    if (this.grounds.length < 2) return;
    const { pen, colours, journal } = this;
    pen.strokeStyle = colours.theme.accent;
    pen.fillStyle = colours.theme.accent;
    const first = firstFrom(this.grounds, Math.floor(this.top) - 1);
    const end = firstFrom(this.grounds, Math.ceil(this.top + this.rows) + 1);
    this.drawGroundLanes();
    if (this.isMap) return;
    pen.lineWidth = this.row < LEAST_TEXT_ROW ? 1.5 : 2.5;
    const inPath = (k) => this.grounds[firstFrom(this.grounds, k)] === k;
    let left = MOST_ARROWS;
    for (let n = first; n < end && left > 0; n += 1) {
      const k = this.grounds[n];
      if (journal.effect[k] === GIVEN && inPath(this.map.sourceOf(k))) {
        this.traceArrow(this.map.sourceOf(k), k);
        pen.stroke();
        this.drawHead(k);
        left -= 1;
      }
      if (this.row >= 8) this.ring(k);
    }
  }

  ring(k) {
    const { pen } = this;
    pen.save();
    pen.lineWidth = 1.5;
    pen.beginPath();
    pen.arc(this.markX(k), this.y(k + 0.5), this.markSize() + 3, 0, 2 * Math.PI);
    pen.stroke();
    pen.restore();
  }

  /** Along each lane, from the first entry of the path to its last. */
  drawGroundLanes() {
    const { pen } = this;
    pen.lineWidth = this.row < LEAST_TEXT_ROW ? 2 : 3;
    for (const [lane, [first, last]] of this.groundSpans) {
      const from = clamp(this.y(first + 0.5), -10, this.height + 10);
      const to = clamp(this.y(last + 0.5), -10, this.height + 10);
      const x = this.lane < 24 ? this.x(lane) + this.lane / 2 : this.x(lane) + RAIL;
      pen.beginPath();
      pen.moveTo(x, from);
      pen.lineTo(x, to);
      pen.stroke();
    }
  }

  setGrounds(grounds) {
    this.grounds = grounds;
    this.groundSpans = new Map();
    grounds.forEach((k) => {
      const lane = this.laneOf(k);
      const [first] = this.groundSpans.get(lane) ?? [k];
      this.groundSpans.set(lane, [first, k]);
    });
  }

  drawSelected() {
    if (this.selected < 0) return;
    const { pen, colours } = this;
    pen.strokeStyle = colours.theme.ink;
    pen.lineWidth = 2;
    pen.beginPath();
    const size = Math.max(5, this.markSize() + 3);
    pen.arc(this.markX(this.selected), this.y(this.selected + 0.5), size, 0, 2 * Math.PI);
    pen.stroke();
  }

  /** The entries' numbers, and signs for what was found and what the selected one rests on. */
  drawGutter() {
    const { pen, colours } = this;
    const [first, end] = this.entriesInSight();
    const step = this.numberStep();
    pen.font = `11px ${SANS}`;
    pen.textBaseline = 'middle';
    pen.textAlign = 'right';
    pen.fillStyle = colours.theme.muted;
    for (let k = Math.ceil(first / step) * step; k < end; k += step) {
      pen.fillText(k.toLocaleString('en'), GUTTER - 14, this.y(k + (this.isMap ? 0 : 0.5)) + 0.5);
    }
    pen.textAlign = 'left';
    this.drawSigns(this.grounds, colours.theme.accent, GUTTER - 9);
    this.drawSigns(this.found, colours.theme.found, 3);
  }

  numberStep() {
    const least = 18 / this.row;
    if (least <= 1) return 1;
    const power = 10 ** Math.floor(Math.log10(least));
    return [1, 2, 5, 10].map((factor) => factor * power).find((step) => step >= least);
  }

  drawSigns(places, colour, x) {
    const { pen } = this;
    pen.fillStyle = colour;
    const height = clamp(this.row - 6, 2, 10);
    const end = firstFrom(places, this.top + this.rows);
    let last = -10;
    for (let n = firstFrom(places, Math.floor(this.top)); n < end; n += 1) {
      const y = this.y(places[n] + 0.5);
      if (y - last >= 1) {
        pen.fillRect(x, y - height / 2, 5, height);
        last = y;
      }
    }
  }
}

/** The height of rows at which texts are read: of a short journal the rows are higher. */
export const readingRow = (lanes) =>
  clamp(lanes.height / (lanes.journal.length + 1), ROW, MOST_ROW - 6);

// The lanes from afar: for each lane and line of pixels a bar as long as there are entries, its
// dark beginning for the commits among them. The bars are written as pixels, and kept until they
// change.
import { COMMIT } from './journal.js';
import { STRUCK } from './label_view.js';

/** How opaque the bars of entries, of commits, and of what is struck out are, of 255. */
const ENTRIES = 100;
const COMMITS = 200;
const STRUCK_OUT = 28;

export class Counts {
  constructor(lanes) {
    this.lanes = lanes;
    this.canvas = document.createElement('canvas');
    this.key = '';
  }

  draw() {
    const { lanes, canvas } = this;
    const { top, row, left, width, height, colours, view } = lanes;
    const key = [top, row, left, width, height, colours.theme.ink, view && view.text].join(' ');
    if (key !== this.key) this.redraw();
    this.key = key;
    lanes.pen.imageSmoothingEnabled = false;
    lanes.pen.drawImage(canvas, 0, 0);
  }

  redraw() {
    const { lanes, canvas } = this;
    canvas.width = Math.max(1, Math.ceil(lanes.width));
    canvas.height = Math.max(1, Math.ceil(lanes.height));
    const pen = canvas.getContext('2d');
    const image = pen.createImageData(canvas.width, canvas.height);
    const pixels = new Uint32Array(image.data.buffer);
    const counts = this.count(canvas.height);
    const shade = this.shadeOf(lanes.colours.theme.ink);
    for (let lane = 0; lane < counts.width; lane += 1) {
      for (let line = 0; line < canvas.height; line += 1) {
        this.drawBar(pixels, canvas.width, counts, lane, line, shade);
      }
    }
    pen.putImageData(image, 0, 0);
  }

  /** A colour without its opacity, as a pixel has it. */
  shadeOf(colour) {
    const [red, green, blue] = [1, 3, 5].map((at) => parseInt(colour.slice(at, at + 2), 16));
    return (blue << 16) | (green << 8) | red;
  }

  /** For each lane in sight and each line its entries, its commits, and what isn't struck out. */
  count(lines) {
    const { lanes } = this;
    const { top, row } = lanes;
    const { effect, laneAt } = lanes.journal;
    const status = lanes.view === null ? null : lanes.view.status;
    const [firstLane, endLane] = lanes.lanesInSight();
    const width = endLane - firstLane;
    const [all, commits, left] = [0, 1, 2].map(() => new Uint32Array(width * (lines + 1)));
    const [first, end] = lanes.entriesInSight();
    for (let k = first; k < end; k += 1) {
      const lane = laneAt[k] - firstLane;
      if (lane >= 0 && lane < width) {
        const at = Math.max(0, Math.floor((k - top) * row)) * width + lane;
        all[at] += 1;
        if (effect[k] === COMMIT) commits[at] += 1;
        if (status === null || status[k] !== STRUCK) left[at] += 1;
      }
    }
    const most = all.reduce((a, b) => Math.max(a, b), 1);
    return { firstLane, width, all, commits, left, most };
  }

  drawBar(pixels, stride, counts, lane, line, shade) {
    const at = line * counts.width + lane;
    const count = counts.all[at];
    if (count === 0) return;
    const { lanes } = this;
    const x = lanes.x(counts.firstLane + lane);
    const rail = lanes.railOf(x);
    const begin = Math.round(rail.x + rail.width + 2);
    const room = Math.max(1, x + lanes.lane - 4 - begin);
    const length = Math.max(1, Math.round(Math.sqrt(count / counts.most) * room));
    const left = counts.left[at] / count;
    const dark = left === 0 ? 0 : Math.round(length * (counts.commits[at] / count));
    const opacity = STRUCK_OUT + Math.round((ENTRIES - STRUCK_OUT) * left);
    const from = line * stride;
    for (let n = Math.max(0, -begin); n < length && begin + n < stride; n += 1) {
      pixels[from + begin + n] = ((n < dark ? COMMITS : opacity) << 24) | shade;
    }
  }
}

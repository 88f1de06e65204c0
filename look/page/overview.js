// The whole journal on a strip beside the lanes. It is drawn once, the window over it each time.
import { COMMIT, firstFrom } from './journal.js';
import { STRUCK } from './label_view.js';

export class Overview {
  constructor(canvas, lanes) {
    this.canvas = canvas;
    this.pen = canvas.getContext('2d');
    this.lanes = lanes;
    this.picture = document.createElement('canvas');
  }

  resize() {
    const { width, height } = this.canvas.getBoundingClientRect();
    const scale = window.devicePixelRatio || 1;
    this.width = width;
    this.height = height;
    this.canvas.width = Math.round(width * scale);
    this.canvas.height = Math.round(height * scale);
    this.pen.setTransform(scale, 0, 0, scale, 0, 0);
    this.redraw();
  }

  /** Draws the journal anew, into a picture that is kept. */
  redraw() {
    const { lanes, picture } = this;
    const { journal, colours, view } = lanes;
    picture.width = Math.max(1, Math.round(this.width));
    picture.height = Math.max(1, Math.round(this.height));
    const pen = picture.getContext('2d');
    const row = this.rowHeight();
    const lane = (picture.width - 12) / journal.lanes.length;
    const size = Math.max(1, lane - 0.5);
    const drawn = new Uint8Array(Math.ceil(picture.height + 1) * (journal.lanes.length + 1));
    for (let k = 0; k < journal.length; k += 1) {
      const y = Math.floor(k * row);
      const place = journal.laneAt[k];
      const cell = y * journal.lanes.length + place;
      const isStruck = view !== null && view.status[k] === STRUCK;
      const worth = (isStruck ? 1 : 2) + (journal.effect[k] === COMMIT ? 2 : 0);
      if (drawn[cell] >= worth) continue;
      drawn[cell] = worth;
      pen.globalAlpha = (isStruck ? 0.12 : 1) * (journal.effect[k] === COMMIT ? 1 : 0.45);
      pen.fillStyle = journal.label[k] < 0 ? colours.theme.ink : colours.ofId(journal.label[k]);
      pen.fillRect(6 + place * lane, y, size, Math.max(1, row - 0.5));
    }
  }

  rowHeight() {
    return Math.min(4, this.height / Math.max(1, this.lanes.journal.length));
  }

  draw() {
    const { pen, lanes } = this;
    const { theme } = lanes.colours;
    const row = this.rowHeight();
    pen.fillStyle = theme.page;
    pen.fillRect(0, 0, this.width, this.height);
    pen.drawImage(this.picture, 0, 0, this.width, this.height);
    this.drawTicks(lanes.found, theme.found, 0, row);
    this.drawTicks(lanes.grounds, theme.accent, this.width - 5, row);
    const height = Math.max(6, lanes.rows * row);
    pen.fillStyle = theme.ink;
    pen.globalAlpha = 0.1;
    pen.fillRect(0, lanes.top * row, this.width, height);
    pen.globalAlpha = 1;
    pen.strokeStyle = theme.muted;
    pen.lineWidth = 1;
    pen.strokeRect(0.5, lanes.top * row + 0.5, this.width - 1, Math.min(height, this.height) - 1);
    if (lanes.selected >= 0) {
      pen.fillStyle = theme.accent;
      pen.fillRect(0, lanes.selected * row - 1, this.width, 2);
    }
  }

  drawTicks(places, colour, x, row) {
    const { pen } = this;
    pen.fillStyle = colour;
    for (let y = 0; y < this.height; y += 1) {
      const first = firstFrom(places, y / row);
      if (first < places.length && places[first] < (y + 1) / row) pen.fillRect(x, y, 5, 1);
    }
  }

  /** The entry that stands at a height. */
  entryAt(y) {
    return y / this.rowHeight();
  }
}

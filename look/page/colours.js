// Each label has a colour and a pattern of its own, the same everywhere on the page. Whoever
// doesn't tell the colours apart goes by the pattern, and by the label's text beside it.

const THEMES = {
  light: {
    page: '#ffffff', ink: '#1c2127', muted: '#6a7380', line: '#dfe3e8', band: 0.1,
    select: '#fff1c2', hover: '#f3f5f8', accent: '#b45309', found: '#d6336c', plain: '#737d89',
    labels: [
      '#0067a5', '#c2410c', '#007a5a', '#a3307a', '#8a6100', '#4a52c9', '#567a00', '#b3202f',
    ],
  },
  dark: {
    page: '#14181d', ink: '#e6e9ee', muted: '#98a2af', line: '#2b323b', band: 0.16,
    select: '#4a3b12', hover: '#1d232b', accent: '#ffb454', found: '#ff7aa8', plain: '#8f9aa8',
    labels: [
      '#5ab0f2', '#ff9561', '#3fcba0', '#ee86c4', '#e0b13c', '#a4a9ff', '#a8ce4c', '#ff7d8f',
    ],
  },
};

/** The lines of each pattern on a tile of eight by eight. The first is the public label's alone. */
const STROKES = [
  [],
  [[0, 8, 8, 0]],
  [[0, 0, 8, 8]],
  [[0, 4, 8, 4]],
  [[4, 0, 4, 8]],
  [[3, 4, 5, 4], [7, 0, 9, 0], [-1, 0, 1, 0], [7, 8, 9, 8], [-1, 8, 1, 8]],
  [[0, 4, 8, 4], [4, 0, 4, 8]],
  [[0, 8, 8, 0], [0, 0, 8, 8]],
];
const TILE = 8;

const weight = (label) => (label.s.length + label.i.length) * 1000 - label.s.length;

export class Colours {
  constructor(journal) {
    this.journal = journal;
    this.ranks = new Map();
    const order = journal.labels.map((_, id) => id)
      .sort((a, b) => weight(journal.labels[a]) - weight(journal.labels[b])
        || journal.labelTexts[a].localeCompare(journal.labelTexts[b], 'en', { numeric: true }));
    order.forEach((id) => this.rank(journal.labelTexts[id]));
    this.order = order;
    this.setTheme('light');
  }

  setTheme(name) {
    this.theme = THEMES[name];
    this.tiles = new Map();
    this.swatches = new Map();
  }

  /** The place of a label among all that have a colour; the public one has none. */
  rank(text) {
    if (text === '{|}') return -1;
    if (!this.ranks.has(text)) this.ranks.set(text, this.ranks.size);
    return this.ranks.get(text);
  }

  strong(text) {
    const rank = this.rank(text);
    return rank < 0 ? this.theme.plain : this.theme.labels[rank % this.theme.labels.length];
  }

  patternOf(text) {
    const rank = this.rank(text);
    const most = STROKES.length - 1;
    return rank < 0 ? 0 : 1 + ((rank + Math.floor(rank / this.theme.labels.length)) % most);
  }

  ofId(id) {
    return this.strong(this.journal.labelTexts[id]);
  }

  /** A tile of a label's colour and pattern, as a canvas. */
  tile(text) {
    if (!this.tiles.has(text)) {
      this.tiles.set(text, this.drawTile(this.strong(text), this.patternOf(text)));
    }
    return this.tiles.get(text);
  }

  drawTile(colour, pattern) {
    const scale = 2;
    const tile = document.createElement('canvas');
    tile.width = TILE * scale;
    tile.height = TILE * scale;
    const pen = tile.getContext('2d');
    pen.scale(scale, scale);
    pen.fillStyle = colour;
    pen.fillRect(0, 0, TILE, TILE);
    pen.strokeStyle = this.theme.page;
    pen.lineWidth = 1.6;
    pen.lineCap = 'square';
    for (const [x, y, toX, toY] of STROKES[pattern]) {
      pen.beginPath();
      pen.moveTo(x, y);
      pen.lineTo(toX, toY);
      pen.stroke();
    }
    return tile;
  }

  /** A canvas pattern of a label, laid from a point on. */
  fill(pen, text, x, y) {
    const pattern = pen.createPattern(this.tile(text), 'repeat');
    pattern.setTransform(new DOMMatrix().translate(x, y).scale(0.5));
    return pattern;
  }

  /** A little square of a label as an image's address. */
  swatch(text) {
    if (!this.swatches.has(text)) this.swatches.set(text, `url(${this.tile(text).toDataURL()})`);
    return this.swatches.get(text);
  }
}

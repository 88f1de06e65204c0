// The heads of the lanes: a button for each lane in sight, with the unit's contamination there.
import { GUTTER } from './lanes.js';
import { element } from './dom.js';

const NARROW = 60;
const LEAST = 13;

export class Header {
  constructor(root, app) {
    this.root = root;
    this.app = app;
    this.heads = new Map();
    this.width = 0;
  }

  draw() {
    const { lanes, journal } = this.app;
    if (this.width !== lanes.lane) this.heads.forEach((head) => head.button.remove());
    if (this.width !== lanes.lane) this.heads.clear();
    this.width = lanes.lane;
    const [first, end] = lanes.lane < LEAST ? [0, 0] : lanes.lanesInSight();
    for (const [lane, head] of this.heads) {
      if (lane < first || lane >= end) {
        head.button.remove();
        this.heads.delete(lane);
      }
    }
    for (let lane = first; lane < end; lane += 1) this.drawHead(lane, journal.lanes[lane]);
  }

  drawHead(lane, id) {
    const { lanes } = this.app;
    if (!this.heads.has(lane)) this.heads.set(lane, this.make(id));
    const head = this.heads.get(lane);
    head.button.style.transform = `translateX(${lanes.x(lane)}px)`;
    head.button.style.visibility = lanes.x(lane) < GUTTER - lanes.lane / 2 ? 'hidden' : 'visible';
    head.button.setAttribute('aria-pressed', String(lanes.unit === id));
    const text = this.labelText(id);
    const key = [text, lanes.colours.theme.page, lanes.view && lanes.view.text].join(' ');
    if (head.key === key) return;
    head.key = key;
    head.label.textContent = text;
    head.label.style.color = lanes.colours.strong(text);
    const isBeyond = text !== '' && lanes.view !== null && !lanes.view.sees(text);
    head.label.style.textDecoration = isBeyond ? 'line-through' : '';
    head.swatch.style.backgroundImage = text === '' ? '' : lanes.colours.swatch(text);
    const { text: name } = this.app.journal.units[id];
    head.button.title = `Unit ${name}${text && `, could have read ${text}`}`;
  }

  /** The unit's contamination at the selected entry, or at the top of what is in sight. */
  labelText(id) {
    const { lanes, map, journal } = this.app;
    const place = lanes.selected >= 0 ? lanes.selected : Math.floor(lanes.top);
    const label = map.labelAt(id, place);
    return label < 0 ? '' : journal.labelTexts[label];
  }

  make(id) {
    const { lanes, journal } = this.app;
    const unit = journal.units[id];
    const swatch = element('span', { className: 'swatch' });
    const label = element('span', { className: 'head-label' });
    const isChild = unit.isInstance || unit.path.length > 1;
    const button = element('button', {
      className: `head${lanes.lane < NARROW ? ' narrow' : ''}${isChild ? ' child' : ''}`,
      onclick: () => this.app.selectUnit(id),
    }, element('span', { className: 'head-name' }, unit.text), element('span', {
      className: 'head-state',
    }, swatch, label));
    button.style.width = `${lanes.lane}px`;
    this.root.append(button);
    return { button, swatch, label, key: null };
  }
}

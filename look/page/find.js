// Finding: a unit, an event, an entry, a label, a tag, or any text of the file.
import { typedLabel, labelText } from './labels.js';
import { COMMIT } from './journal.js';

const MOST_HITS = 100000;
const lower = (byte) => (byte >= 65 && byte <= 90 ? byte + 32 : byte);
const isNumberByte = (byte) => (byte >= 48 && byte <= 57) || byte === 46;

/** The places at which the text stands between two others, without regard to case. */
export function placesOfText(bytes, from, to, text) {
  const needle = new TextEncoder().encode(text).map(lower);
  const last = needle.length - 1;
  const skip = new Uint32Array(256).fill(needle.length);
  needle.forEach((byte, k) => { if (k < last) skip[byte] = last - k; });
  const found = [];
  let at = from;
  while (at + last < to && found.length < MOST_HITS) {
    const end = lower(bytes[at + last]);
    let k = last;
    while (k >= 0 && lower(bytes[at + k]) === needle[k]) k -= 1;
    if (k < 0) found.push(at);
    at += skip[end];
  }
  return found;
}

/** The entries at these places of the file, each once. */
function entriesAt(journal, places) {
  const entries = [];
  let k = 0;
  for (const place of places) {
    while (k + 1 < journal.length && journal.offset[k + 1] <= place) k += 1;
    if (entries[entries.length - 1] !== k) entries.push(k);
  }
  return Uint32Array.from(entries);
}

/** The entries in which a text stands; a tag only as a whole. */
export function entriesWith(journal, text) {
  if (text === '' || journal.length === 0) return new Uint32Array(0);
  const places = placesOfText(journal.bytes, journal.offset[0], journal.end, text);
  if (!/^#[0-9.]*[0-9]$/.test(text)) return entriesAt(journal, places);
  const end = new TextEncoder().encode(text).length;
  return entriesAt(journal, places.filter((place) => !isNumberByte(journal.bytes[place + end])));
}

/** What a typed text names by itself: things to go to, each with its words. */
export function namedBy(journal, text) {
  const found = [];
  const label = typedLabel(text);
  if (label) {
    const spelled = labelText(label);
    found.push({ kind: 'label', label: spelled, words: `What is seen at ${spelled}` });
  }
  const event = eventNamed(journal, text);
  if (event !== undefined) {
    found.push({ kind: 'entry', entry: event, words: `Event ${text}, entry ${event}` });
  }
  const unit = journal.unitIds.get(text.replace(/^unit /, ''));
  if (unit !== undefined) {
    found.push({ kind: 'unit', unit, words: `Unit ${journal.units[unit].text}` });
  }
  const number = /^(?:entry )?([0-9]+)$/.exec(text);
  if (number && Number(number[1]) < journal.length) {
    found.push({ kind: 'entry', entry: Number(number[1]), words: `Entry ${number[1]}` });
  }
  return found;
}

/** The first commit of the event of this name. */
function eventNamed(journal, text) {
  const [, unit, number] = /^(?:event )?(.+)!([0-9]+)$/.exec(text) ?? [];
  const id = journal.unitIds.get(unit);
  const event = id === undefined ? undefined : journal.eventIds.get(id * 2 ** 32 + Number(number));
  if (event === undefined) return undefined;
  const [first] = journal.commitsOfEvent.of(event);
  return first !== undefined && journal.effect[first] === COMMIT ? first : undefined;
}

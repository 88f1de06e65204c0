// Journals that no example has: long ones, odd ones, and files that are none.

const HEAD = 'defcon-journal 2\n';

/** The entries of a publication that these units are handed, read and drop. */
function tick(number, readers) {
  const price = 1000 + ((number * 7919) % 211);
  const lines = [
    '0 create -> handle 0', '@ {|}', `0 add 0 {|} tick ${price} -> ok`, '@ {|}',
    '0 publish 0 -> ok', '@ {|}', `= 0!${number}`, `+ {|} tick ${price}`,
  ];
  for (let k = 1; k <= readers; k += 1) {
    const at = `@ {#${k}|}`;
    lines.push(
      `${k} get -> event 0 0`, at, `< 0!${number}`, `. {|} tick ${price}`,
      `${k} read 0 tick -> parts`, at, `: {|} ${price}`, `${k} drop 0 -> ok`, at,
    );
  }
  return lines;
}

/** A right journal with about this many entries, of nine readers at a label each. */
export function longJournal(entries) {
  const readers = 9;
  const lines = ['unit 0 {|}'];
  for (let k = 1; k <= readers; k += 1) lines.push(`unit ${k} {#${k}|}`);
  lines.push('run');
  for (let k = 1; k <= readers; k += 1) lines.push(`${k} sub tick? -> sub 0`, `@ {#${k}|}`);
  const parts = [HEAD + lines.join('\n')];
  for (let number = 0; number * (3 + 3 * readers) < entries; number += 1) {
    parts.push(tick(number, readers).join('\n'));
  }
  return `${parts.join('\n')}\n`;
}

/** A right journal of this many units, each of which is handed one event. */
export function wideJournal(units) {
  const lines = [];
  for (let k = 0; k < units; k += 1) lines.push(`unit ${k} {${k % 3 === 0 ? '' : `#${k % 40}`}|}`);
  lines.push('run');
  const at = (k) => `@ {${k % 3 === 0 ? '' : `#${k % 40}`}|}`;
  for (let k = 1; k < units; k += 1) lines.push(`${k} sub a? -> sub 0`, at(k));
  const calls = ['create -> handle 0', 'add 0 {|} a 1 -> ok', 'publish 0 -> ok'];
  lines.push(...calls.flatMap((call) => [`0 ${call}`, at(0)]), '= 0!0', '+ {|} a 1');
  for (let k = 1; k < units; k += 1) {
    lines.push(`${k} get -> event 0 0`, at(k), '< 0!0', '. {|} a 1');
  }
  return `${HEAD}${lines.join('\n')}\n`;
}

/** A right journal of instances: one for each set of secrets at which parts match. */
export function instances() {
  const tail = ['create -> handle 0', 'add 0 {#0|} a 1 -> ok', 'add 0 {#1|} b 2 -> ok',
    'add 0 {|} a 3 -> ok', 'publish 0 -> ok'].map((line) => `0 ${line}\n@ {|}\n`).join('');
  return `${HEAD}unit 0 {|}\nunit 1 {|}\nrun\n1 msub a?&b? -> sub 0\n@ {|}\n${tail}`
    + '= 0!0\n+ {#0|} a 1\n+ {#1|} b 2\n+ {|} a 3\n'
    + '1/0{#1} get -> event 0 0\n@ {#1|}\n< 0!0\n. {#1|} b 2\n. {|} a 3\n'
    + '1/0{#1} read 0 b -> parts\n@ {#1|}\n: {#1|} 2\n'
    + '1/0{#0,#1} get -> event 0 0\n@ {#0,#1|}\n< 0!0\n. {#0|} a 1\n. {#1|} b 2\n. {|} a 3\n'
    + '1/0{#0,#1} read 0 a -> parts\n@ {#0,#1|}\n: {#0|} 1\n: {|} 3\n1 get -> nothing\n@ {|}\n';
}

/** A right journal with an instance whose name has sixty tags. */
export function manyTags() {
  const tags = Array.from({ length: 60 }, (_, k) => `#${k}`).join(',');
  return `${HEAD}unit 0 {|}\nunit 1 {|}\nrun\n1 msub a? -> sub 0\n@ {|}\n0 create -> handle 0\n@ {|}\n`
    + `0 add 0 {${tags}|} a 1 -> ok\n@ {|}\n0 publish 0 -> ok\n@ {|}\n= 0!0\n+ {${tags}|} a 1\n`
    + `1/0{${tags}} get -> event 0 0\n@ {${tags}|}\n< 0!0\n. {${tags}|} a 1\n`;
}

export const MARKUP = '</script><script>window.bad=1</script><img src=x onerror=\\"window.bad=2\\">'
  + '<!--<b>bold</b>&amp;';

/** A right journal whose values are markup. */
export function markup() {
  const value = `"${MARKUP}"`;
  return `${HEAD}unit 0 {|}\nunit 1 {|}\nrun\n1 sub a="${MARKUP}" -> sub 0\n@ {|}\n`
    + `0 create -> handle 0\n@ {|}\n0 add 0 {|} a ${value} -> ok\n@ {|}\n0 publish 0 -> ok\n@ {|}\n`
    + `= 0!0\n+ {|} a ${value}\n1 get -> event 0 0\n@ {|}\n< 0!0\n. {|} a ${value}\n`;
}

const START = `${HEAD}unit 0 {|}\nrun\n`;
const CREATED = `${START}0 create -> handle 0\n@ {|}\n`;
const deep = (depth) => '['.repeat(depth) + ']'.repeat(depth);

/** Files that aren't journals, or just are. */
export const FILES = {
  empty: '',
  'not a journal': 'symbol,price\nAAA,1000\n',
  script: 'defcon-script 1\nrun\n',
  'no entry': START,
  'cut in a line': CREATED.slice(0, -4),
  'cut behind a call': CREATED.slice(0, -6),
  'cut behind a mark': `${CREATED}0 publish 0 -> ok\n@ {|}\n= 0!0\n`,
  'a label out of order': CREATED.replace('@ {|}', '@ {#2,#1|}'),
  'a tag twice': CREATED.replace('@ {|}', '@ {#1,#1|}'),
  'a unit out of order': CREATED.replace('unit 0', 'unit 1'),
  'an unknown call': CREATED.replace('create', 'remove'),
  'an unknown reply': CREATED.replace('handle', 'handles'),
  'a number too large': CREATED.replace('handle 0', 'handle 4294967296'),
  'a long path': CREATED.replace('0 create', '0.1.2.3.4.5.6.7.8 create'),
  'a path without an end': CREATED.replace('0 create', '0. create'),
  'five clauses': `${START}0 sub a?&b?&c?&d?&e? -> sub 0\n@ {|}\n`,
  'bytes that are no UTF-8': Buffer.concat([Buffer.from(`${CREATED}0 add 0 {|} a "`),
    Buffer.from([0xff]), Buffer.from('" -> ok\n@ {|}\n')]),
  'a name of 33 bytes': `${CREATED}0 read 0 ${'a'.repeat(33)} -> no part\n@ {|}\n`,
  'a value too deep': `${CREATED}0 add 0 {|} a ${deep(33)} -> ok\n@ {|}\n`,
  'a value as deep as may be': `${CREATED}0 add 0 {|} a ${deep(32)} -> ok\n@ {|}\n`,
  'a value too long': `${CREATED}0 add 0 {|} a "${'a'.repeat(65537)}" -> ok\n@ {|}\n`,
  'a value as long as may be': `${CREATED}0 add 0 {|} a "${'a'.repeat(65536)}" -> ok\n@ {|}\n`,
  'a value of too many nodes': `${CREATED}0 add 0 {|} a [${Array(4096).fill(1)}] -> ok\n@ {|}\n`,
  'a map out of order': `${CREATED}0 add 0 {|} a (b=1,a=1) -> ok\n@ {|}\n`,
  'anything behind the line': `${CREATED}---\n<b>\0\n`,
  'markup in place of a call': `${CREATED}<img src=x onerror="window.bad=3">\n`,
};

const BYTES = Buffer.from('0123456789#{}|,.-+!/@:<>="\\x[]()& \nazSI_?^\0\t\r\x7f\xc3\xa9\xff', 'latin1');

/** A copy with a byte or a line changed, cut off, left out or put in, by this number. */
export function damage(bytes, number) {
  let seed = number * 2654435761 + 12345;
  const below = (most) => {
    seed = (Math.imul(seed, 1103515245) + 12345) >>> 0;
    return (seed >>> 12) % most;
  };
  const list = [...bytes];
  const at = below(list.length);
  const line = list.lastIndexOf(10, at) + 1;
  const next = list.indexOf(10, at) + 1 || list.length;
  const byte = BYTES[below(BYTES.length)];
  const changes = [
    () => list.splice(at, 1),
    () => list.splice(at, 1, byte),
    () => list.splice(at, 0, byte),
    () => list.splice(at),
    () => list.splice(line, next - line),
    () => list.splice(line, 0, ...list.slice(line, next)),
  ];
  changes[below(changes.length)]();
  return Buffer.from(list);
}

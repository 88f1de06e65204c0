// The tests of the page. Each takes the browser, and tells in a line what it saw.
import { strict as assert } from 'node:assert';
import { spawnSync } from 'node:child_process';
import {
  closeSync, mkdirSync, mkdtempSync, openSync, readdirSync, readFileSync, rmSync, writeFileSync,
} from 'node:fs';
import { tmpdir } from 'node:os';
import { basename, dirname, join } from 'node:path';
import { fileURLToPath } from 'node:url';
import { Browser } from './browser.mjs';
import {
  damage, FILES, instances, longJournal, manyTags, markup, MARKUP, wideJournal,
} from './journals.mjs';

const root = dirname(dirname(dirname(fileURLToPath(import.meta.url))));
const work = mkdtempSync(join(tmpdir(), 'look-test-'));
const words = process.argv.slice(2);
const option = (name) => (words[0] === name ? words.splice(0, 2)[1] : null);
const pictures = option('--pictures');
const only = option('--only');
const examples = readdirSync(join(root, 'examples')).filter((name) => name.endsWith('.journal'))
  .map((name) => join(root, 'examples', name));
const journals = [...examples, written('instances.journal', instances()), ...words];
const MOST_PLACES = 8;
const DAMAGED = 40;

function defcon(...args) {
  const run = spawnSync(join(root, 'defcon'), args, { encoding: 'utf8', maxBuffer: 2 ** 30 });
  const lines = run.stderr.split('\n').filter((line) => line !== '' && !line.includes('unproved'));
  return { status: run.status, output: run.stdout, said: lines.join('\n') };
}

/** Makes the page of a journal; gives its path. */
function pageOf(journal, name = basename(journal)) {
  const path = join(work, `${name}.html`);
  const output = openSync(path, 'w');
  const stdio = ['ignore', output, 'pipe'];
  const run = spawnSync(join(root, 'defcon'), ['look', journal], { stdio });
  closeSync(output);
  assert.equal(run.status, 0, `look of ${journal}: ${run.stderr}`);
  return path;
}

function written(name, text) {
  const path = join(work, name);
  writeFileSync(path, text);
  return path;
}

const canRun = defcon('check', examples[0]).status === 0;

/** What fades at each label is what a purge strikes out. */
async function purges(page) {
  let count = 0;
  for (const journal of journals) {
    await page.go(pageOf(journal));
    for (const label of await page.value('labelsToTry(look)')) {
      const shown = await page.value(`look.choose(null), look.choose(${JSON.stringify(label)}),
        look.lanes.view.rest()`);
      const purge = defcon('purge', label, journal);
      assert.equal(purge.status, 0, `purge ${label} ${journal}: ${purge.said}`);
      assert.ok(shown === purge.output, `${journal} at ${label} isn't what purge writes`);
      count += 1;
    }
    assert.deepEqual(page.faults, []);
  }
  return `${count} labels of ${journals.length} journals fade what purge strikes out`;
}

/** The labels of a journal, and their joins with the first of them. */
const LABELS_TO_TRY = `function labelsToTry(look) {
  const { labels } = look.journal;
  const text = ({ s, i }) => '{' + s.join(',') + '|' + i.join(',') + '}';
  const order = (tags) => [...new Set(tags)].sort((a, b) => a.localeCompare(b, 'en', { numeric: true }));
  const join = (a, b) => ({ s: order([...a.s, ...b.s]), i: a.i.filter((tag) => b.i.includes(tag)) });
  const all = [...labels, ...labels.flatMap((a) => labels.slice(0, 3).map((b) => join(a, b)))];
  return [...new Set(['{|}', ...all.map(text)])];
}`;

/** Without a program, the purge that is stored. */
async function storedPurge(page) {
  await page.go(pageOf(join(root, 'examples/small_floor.journal')));
  const shown = await page.value('look.choose("{#3|}"), look.lanes.view.rest()');
  assert.equal(shown, readFileSync(join(root, 'examples/small_floor.purged'), 'utf8'));
  return 'the small floor at {#3|} fades what its stored purge lacks';
}

/** The entries on which one rests are by themselves a right journal, of which it is the last. */
async function grounds(page) {
  let count = 0;
  for (const journal of journals) {
    await page.go(pageOf(journal));
    const length = await page.value('look.journal.length');
    const step = Math.max(1, Math.ceil(length / MOST_PLACES));
    for (let k = length - 1; k >= 0; k -= step) {
      const lines = await page.value(`[...look.rules.grounds(${k})].flatMap((one) => (
        look.journal.linesOf(one)))`);
      const head = readFileSync(journal, 'utf8').split('\nrun\n')[0];
      const rest = written('rest.journal', [head, 'run', ...lines, ''].join('\n'));
      const check = defcon('check', rest);
      assert.match(check.output, /^valid /, `grounds of ${k}, ${journal}: ${check.output}`);
      count += 1;
    }
  }
  return `what ${count} entries rest on is right by itself`;
}

/** The state that the page tells of a unit has the contamination that the journal notes. */
async function states(page) {
  let count = 0;
  for (const journal of journals) {
    await page.go(pageOf(journal));
    count += await page.value(`(() => {
      const { journal, rules } = look;
      let count = 0;
      for (let k = 0; k < journal.length; k += 1) {
        if (journal.label[k] < 0) continue;
        const { s, i } = rules.stateBefore(journal.actor[k], k).contamination;
        const text = '{' + s.join(',') + '|' + i.join(',') + '}';
        if (text !== journal.labelTexts[journal.label[k]]) throw new Error('entry ' + k);
        count += 1;
      }
      return count;
    })()`);
  }
  return `${count} states have the contamination that is noted`;
}

/** A file that is no journal is refused with the line that the program names. */
async function badFiles(page) {
  for (const [name, text] of Object.entries(FILES)) {
    const file = written('file.journal', text);
    const state = await page.go(pageOf(file));
    const shown = await page.value('look.refused ?? null');
    const check = defcon('check', file);
    if (canRun && check.status === 3) {
      assert.equal(state, 'refused', name);
      assert.equal(`defcon: bad input 1 line ${shown.line}: ${shown.kind}`, check.said, name);
      const told = await page.value('document.body.innerText');
      assert.ok(told.includes(`Line ${shown.line} `), name);
    } else if (canRun) assert.equal(state, 'ready', name);
    assert.equal(await page.value('window.bad ?? null'), null);
    assert.deepEqual(page.faults, []);
  }
  return `${Object.keys(FILES).length} odd files are shown or refused as by the program`;
}

/** Damaged copies of the examples are taken or refused as by the program. */
async function damaged(page) {
  await page.go(pageOf(examples[0]));
  let refused = 0;
  for (let number = 0; number < DAMAGED; number += 1) {
    const source = readFileSync(journals[number % journals.length]).subarray(0, 4000);
    const bytes = damage(source, number);
    const check = defcon('check', written('damaged.journal', bytes));
    const theirs = check.status === 3 ? check.said.replace('defcon: bad input 1 ', '') : 'taken';
    const mine = await page.value(`look.read(Uint8Array.from(atob('${bytes.toString('base64')}'),
      (one) => one.charCodeAt(0))).then(() => 'taken', (error) => error.message)`);
    assert.equal(mine, theirs, `damage ${number}`);
    refused += mine === 'taken' ? 0 : 1;
  }
  return `${refused} of ${DAMAGED} damaged files are refused with the line that the program names`;
}

/** What is text in a journal is text in the page. */
async function untrusted(page) {
  const state = await page.go(pageOf(written('<img src=x onerror=bad>.journal', markup()), 'markup'));
  assert.equal(state, 'ready');
  await page.value('look.select(3)');
  await page.drawn();
  const panel = await page.value('document.getElementById("panel").textContent');
  assert.ok(panel.includes(`"${MARKUP}"`));
  assert.ok((await page.value('document.title')).includes('<img src=x onerror=bad>'));
  assert.equal(await page.value('window.bad ?? null'), null);
  assert.equal(await page.value('document.querySelectorAll("img, b:not(#panel b)").length'), 0);
  assert.deepEqual(page.fetched.filter((url) => !/^(file|data|blob):/.test(url)), []);
  assert.deepEqual(page.faults, []);
  return 'markup is shown as text, nothing is fetched';
}

async function wide(page) {
  await page.go(pageOf(written('wide.journal', wideJournal(10000))));
  assert.equal(await page.value('look.journal.lanes.length'), 10000);
  assert.ok(await page.value('document.querySelectorAll(".head").length') < 100);
  await page.value('look.selectUnit(look.journal.unitIds.get("7777"))');
  await page.drawn();
  assert.ok(await page.value('[...document.querySelectorAll(".head-name")].some((one) => '
    + 'one.textContent === "7777")'));
  const commit = await page.value('look.journal.effect.indexOf(1)');
  await page.value(`look.select(${commit})`);
  assert.match(await page.value('document.getElementById("panel").innerText'), /9,939 more/);
  await page.go(pageOf(written('tags.journal', manyTags())));
  await page.value('look.select(4)');
  await page.drawn();
  assert.ok(await page.value('document.documentElement.scrollWidth <= innerWidth'));
  assert.ok((await page.value('document.getElementById("panel").innerText')).includes('#58,#59}'));
  return '10,000 units and a name with 60 tags keep the page in order';
}

/** Who was handed an event, in one click or by keys alone. */
async function handling(page) {
  await page.go(pageOf(join(root, 'examples/hidden_part.journal')));
  const commit = await page.value('look.journal.effect.indexOf(1)');
  const { x, y } = await page.value(`(() => {
    const box = document.getElementById('lanes').getBoundingClientRect();
    const { lanes } = look;
    return { x: box.x + lanes.markX(${commit}), y: box.y + lanes.y(${commit} + 0.5) };
  })()`);
  await page.click(x, y);
  await page.drawn();
  const told = await page.value('document.getElementById("panel").innerText');
  assert.match(told, /Who was handed 0!0/);
  assert.match(told, /unit 1 at entry \d+: bed, diagnosis/);
  assert.match(told, /unit 2 at entry \d+: bed\n/);
  await page.press('Enter');
  assert.equal(await page.value('look.journal.effect[look.lanes.selected]'), 2);
  await page.press('Enter');
  assert.equal(await page.value('look.lanes.selected'), commit);
  await page.press('ArrowUp');
  assert.equal(await page.value('look.lanes.selected'), commit - 1);
  await page.press('Escape');
  assert.equal(await page.value('look.lanes.selected'), -1);
  await page.press('/');
  for (const key of 'measles') await page.press(key);
  await page.press('Enter');
  assert.ok(await page.value('look.lanes.found.length') >= 3);
  assert.ok(await page.value('look.lanes.selected') >= 0);
  return 'a click and keys alone tell who was handed an event';
}

const median = (list) => [...list].sort((a, b) => a - b)[Math.floor(list.length / 2)];

/** How long a page takes to open and to draw. The figures are those of this machine as it is. */
async function speed(page) {
  const told = [];
  for (const entries of [100000, 1000000]) {
    const path = pageOf(written('long.journal', longJournal(entries)));
    const begin = Date.now();
    await page.go(path);
    const opened = Date.now() - begin;
    for (const [name, move] of [['rows', 'look.lanes.scrollBy(0, 40)'],
      ['marks', 'look.lanes.zoomTo(4); look.lanes.scrollBy(0, 40)'],
      ['whole', 'look.lanes.zoomTo(look.lanes.least * (1 + k / 100), 0)']]) {
      const frames = await page.value(`(async () => {
        look.frames.length = 0;
        for (let k = 0; k < 40; k += 1) {
          ${move};
          look.redraw();
          await new Promise((go) => requestAnimationFrame(go));
        }
        return look.frames;
      })()`);
      told.push(`${name} ${median(frames).toFixed(1)} ms`);
    }
    told.push(`${entries} entries opened in ${(opened / 1000).toFixed(1)} s`);
    assert.ok(opened < 100000);
    assert.deepEqual(page.faults, []);
  }
  return told.join(', ');
}

const SCENES = [
  ['ward', 'hidden_part', 1000, 470, false, 'look.select(6)'],
  ['ward_at_public', 'declassified', 1000, 540, false, 'look.choose("{|}")'],
  ['instances', 'instances', 1000, 470, false, 'look.select(8)'],
  ['floor', 'small_floor', 1240, 700, false, 'look.select(77)'],
  ['floor_at_a_trader', 'small_floor', 1240, 700, true, 'look.showWhole(), look.choose("{#3|}")'],
];

async function takePictures(browser) {
  mkdirSync(pictures, { recursive: true });
  written('instances.journal', instances());
  for (const [name, journal, width, height, isDark, act] of SCENES) {
    const page = await browser.open(width, height, isDark);
    const folder = journal === 'instances' ? work : join(root, 'examples');
    await page.go(pageOf(join(folder, `${journal}.journal`)));
    await page.value(`void (${act})`);
    writeFileSync(join(pictures, `${name}.png`), await page.picture());
    await page.close();
  }
  return `${SCENES.length} pictures are in ${pictures}`;
}

async function main() {
  const browser = new Browser(process.env.CHROMIUM);
  try {
    const page = await browser.open(1280, 800);
    await page.send('Page.addScriptToEvaluateOnNewDocument', { source: LABELS_TO_TRY });
    if (!canRun) console.log('look/test: ./defcon can’t run here; compared is what is stored');
    const withProgram = canRun ? [purges, grounds, damaged] : [];
    const tests = [storedPurge, ...withProgram, states, badFiles, untrusted, wide, handling, speed];
    for (const test of tests.filter((one) => only === null || one.name === only)) {
      console.log(`look/test: ${await test(page)}`);
    }
    if (pictures) console.log(`look/test: ${await takePictures(browser)}`);
  } finally {
    await browser.close();
    rmSync(work, { recursive: true, force: true });
  }
}

await main();

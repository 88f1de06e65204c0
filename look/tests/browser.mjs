// A headless Chromium, driven by the DevTools protocol over a pipe.
import { spawn } from 'node:child_process';
import { mkdtempSync, rmSync } from 'node:fs';
import { tmpdir } from 'node:os';
import { join } from 'node:path';

const PATIENCE = 120000;
const CODES = { Enter: 13, Escape: 27, ArrowLeft: 37, ArrowUp: 38, ArrowRight: 39, ArrowDown: 40 };
const TWO_FRAMES = `new Promise((go) => requestAnimationFrame(() => {
  requestAnimationFrame(() => go(1));
}))`;

export class Browser {
  constructor(program) {
    this.profile = mkdtempSync(join(tmpdir(), 'look-'));
    const flags = [
      '--headless=new', '--remote-debugging-pipe', `--user-data-dir=${this.profile}`, '--disable-gpu',
      '--hide-scrollbars', '--no-first-run', '--disable-background-networking', '--mute-audio',
      '--disable-dev-shm-usage', ...(process.getuid() === 0 ? ['--no-sandbox'] : []),
    ];
    this.process = spawn(program, [...flags, 'about:blank'], {
      stdio: ['ignore', 'ignore', 'ignore', 'pipe', 'pipe'],
    });
    this.waiting = new Map();
    this.number = 0;
    this.rest = '';
    this.listeners = new Set();
    this.process.stdio[4].on('data', (data) => this.receive(data.toString()));
  }

  receive(text) {
    const messages = (this.rest + text).split('\0');
    this.rest = messages.pop();
    for (const message of messages.map((one) => JSON.parse(one))) {
      const waiting = this.waiting.get(message.id);
      this.waiting.delete(message.id);
      if (!waiting) this.listeners.forEach((listener) => listener(message));
      else if (message.error) waiting.refuse(new Error(message.error.message));
      else waiting.accept(message.result);
    }
  }

  send(method, params = {}, sessionId = undefined) {
    this.number += 1;
    const id = this.number;
    this.process.stdio[3].write(`${JSON.stringify({ id, method, params, sessionId })}\0`);
    return new Promise((accept, refuse) => {
      const tooLate = setTimeout(() => refuse(new Error(`no answer to ${method}`)), PATIENCE);
      const done = (next) => (answer) => {
        clearTimeout(tooLate);
        next(answer);
      };
      this.waiting.set(id, { accept: done(accept), refuse: done(refuse) });
    });
  }

  async open(width, height, isDark = false) {
    const { targetId } = await this.send('Target.createTarget', { url: 'about:blank' });
    const { sessionId } = await this.send('Target.attachToTarget', { targetId, flatten: true });
    const page = new Page(this, targetId, sessionId);
    await page.prepare(width, height, isDark);
    return page;
  }

  async close() {
    const ended = new Promise((go) => { this.process.once('exit', go); });
    await this.send('Browser.close').catch(() => this.process.kill());
    await ended;
    rmSync(this.profile, { recursive: true, force: true, maxRetries: 5 });
  }
}

class Page {
  constructor(browser, targetId, sessionId) {
    this.browser = browser;
    this.targetId = targetId;
    this.sessionId = sessionId;
    this.faults = [];
    this.fetched = [];
    browser.listeners.add((message) => this.note(message));
  }

  /** Keeps what went wrong in the page, and what it asked the network for. */
  note({ sessionId, method, params }) {
    if (sessionId !== this.sessionId) return;
    if (method === 'Runtime.exceptionThrown') {
      const { exception, text } = params.exceptionDetails;
      this.faults.push(exception?.description ?? text);
    }
    const isFault = method === 'Log.entryAdded' && params.entry.level === 'error';
    if (isFault) this.faults.push(params.entry.text);
    if (method === 'Network.requestWillBeSent') this.fetched.push(params.request.url);
  }

  send(method, params) {
    return this.browser.send(method, params, this.sessionId);
  }

  async prepare(width, height, isDark) {
    const told = ['Page', 'Runtime', 'Log', 'Network'];
    await Promise.all(told.map((name) => this.send(`${name}.enable`)));
    await this.send('Emulation.setDeviceMetricsOverride', {
      width, height, deviceScaleFactor: 1, mobile: false,
    });
    await this.send('Emulation.setEmulatedMedia', {
      features: [{ name: 'prefers-color-scheme', value: isDark ? 'dark' : 'light' }],
    });
  }

  /** Opens a file and waits until it shows its journal, or says why not. */
  async go(path) {
    this.fetched = [];
    this.faults = [];
    await this.send('Page.navigate', { url: `file://${path}` });
    const begin = Date.now();
    for (;;) {
      const state = await this.value('document.body.dataset.state').catch(() => 'loading');
      if (state !== 'loading') return state;
      if (this.faults.length > 0) throw new Error(this.faults.join('\n'));
      if (Date.now() - begin > PATIENCE) throw new Error(`${path} isn't shown in time`);
      await new Promise((go) => { setTimeout(go, 30); });
    }
  }

  /** What an expression is in the page. */
  async value(expression) {
    const { result, exceptionDetails } = await this.send('Runtime.evaluate', {
      expression, awaitPromise: true, returnByValue: true,
    });
    if (exceptionDetails) {
      throw new Error(exceptionDetails.exception?.description ?? exceptionDetails.text);
    }
    return result.value;
  }

  /** After two frames, so that what was asked for is drawn. */
  drawn() {
    return this.value(TWO_FRAMES);
  }

  async click(x, y) {
    const at = { x, y, button: 'left', clickCount: 1 };
    await this.send('Input.dispatchMouseEvent', { ...at, type: 'mousePressed' });
    await this.send('Input.dispatchMouseEvent', { ...at, type: 'mouseReleased' });
  }

  async press(key, modifiers = 0) {
    const text = key.length === 1 ? key : key === 'Enter' ? '\r' : undefined;
    const params = { key, code: key, modifiers, windowsVirtualKeyCode: CODES[key] };
    await this.send('Input.dispatchKeyEvent', { ...params, text, type: 'keyDown' });
    await this.send('Input.dispatchKeyEvent', { ...params, type: 'keyUp' });
  }

  async picture() {
    await this.drawn();
    const { data } = await this.send('Page.captureScreenshot', { format: 'png' });
    return Buffer.from(data, 'base64');
  }

  async close() {
    await this.browser.send('Target.closeTarget', { targetId: this.targetId });
  }
}

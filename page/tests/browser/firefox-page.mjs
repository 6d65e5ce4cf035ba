// One page of Firefox, with as many of the methods of a page of Chromium as the cases need there.
import fs from 'node:fs';
import { driverKey } from './keys.mjs';

export class FirefoxPage {
  constructor(browser, context) {
    Object.assign(this, { browser, context });
    this.errors = [];
    this.requests = [];
    this.dialogs = [];
    this.acceptDialogs = true;
    this.stopListening = browser.exchange.listen(message => this.hear(message));
  }

  ask(method, params) {
    return this.browser.ask(method, { context: this.context, ...params });
  }

  hear({ method, params }) {
    if ((params.context ?? params.source?.context) !== this.context) return;
    if (method === 'log.entryAdded' && params.level === 'error') this.errors.push(params.text);
    if (method === 'network.beforeRequestSent') this.requests.push(params.request.url);
    if (method === 'browsingContext.userPromptOpened') this.answerDialog(params);
  }

  answerDialog({ type, message }) {
    this.dialogs.push({ type, message });
    this.ask('browsingContext.handleUserPrompt', { accept: this.acceptDialogs }).catch(() => {});
  }

  async prepare({ width = 1366, height = 768, before = null }) {
    await this.ask('browsingContext.setViewport', { viewport: { width, height } });
    if (!before) return;
    await this.browser.ask('script.addPreloadScript', {
      functionDeclaration: `() => { ${before} }`,
      contexts: [this.context],
    });
  }

  async goto(address) {
    await this.ask('browsingContext.navigate', { url: address, wait: 'complete' });
  }

  /** The answer travels as JSON, since the protocol's own form of values is another one. */
  async evaluate(task, ...values) {
    const call = `(${task})(${values.map(value => JSON.stringify(value)).join(', ')})`;
    const answer = await this.browser.ask('script.evaluate', {
      expression: `(async () => JSON.stringify(await ${call}))()`,
      target: { context: this.context },
      awaitPromise: true,
      userActivation: true,
    });
    if (answer.type === 'exception') throw new Error(answer.exceptionDetails.text);
    return answer.result.type === 'string' ? JSON.parse(answer.result.value) : undefined;
  }

  press(key, modifiers) {
    return this.keys(driverKey(key, modifiers));
  }

  type(text) {
    return this.keys([...text].flatMap(letter => driverKey(letter)));
  }

  keys(actions) {
    return this.ask('input.performActions', { actions: [{ type: 'key', id: 'keyboard', actions }] });
  }

  pointer(actions) {
    const pointer = { type: 'pointer', id: 'mouse', parameters: { pointerType: 'mouse' }, actions };
    return this.ask('input.performActions', { actions: [pointer] });
  }

  clickAt(place) {
    return this.pointer([moveTo(place), { type: 'pointerDown', button: 0 }, { type: 'pointerUp', button: 0 }]);
  }

  drag(from, to) {
    const middle = [0, 1].map(axis => (from[axis] + to[axis]) / 2);
    const down = { type: 'pointerDown', button: 0 };
    return this.pointer([moveTo(from), down, moveTo(middle), moveTo(to), { type: 'pointerUp', button: 0 }]);
  }

  async screenshot(file) {
    const shot = await this.ask('browsingContext.captureScreenshot', {});
    fs.writeFileSync(file, Buffer.from(shot.data, 'base64'));
  }

  async close() {
    this.stopListening();
    await this.ask('browsingContext.close', {}).catch(() => {});
  }
}

const moveTo = ([x, y]) => ({ type: 'pointerMove', x: Math.round(x), y: Math.round(y) });

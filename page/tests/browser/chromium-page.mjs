// One page of Chromium: what a person does with it, what it shows, and what it does behind the glass.
import fs from 'node:fs';
import { chromiumKey } from './keys.mjs';
import { until } from './tools.mjs';

// Others, as that for assistive technology, would make the page slower while they are on.
const PARTS = ['Page', 'Runtime', 'Log', 'Network'];

export class ChromiumPage {
  constructor(browser, { targetId, sessionId }) {
    Object.assign(this, { browser, targetId, sessionId });
    this.errors = [];
    this.requests = [];
    this.dialogs = [];
    this.choosers = 0;
    this.acceptDialogs = true;
    this.loads = 0;
    this.stopListening = browser.exchange.listen(message => {
      if (message.sessionId === sessionId) this.hear(message);
    });
  }

  ask(method, params) {
    return this.browser.ask(method, params, this.sessionId);
  }

  hear({ method, params }) {
    if (method === 'Runtime.exceptionThrown') this.errors.push(thrownText(params.exceptionDetails));
    if (method === 'Log.entryAdded' && params.entry.level === 'error') this.errors.push(params.entry.text);
    if (method === 'Runtime.consoleAPICalled' && ['error', 'assert'].includes(params.type)) {
      this.errors.push(`console: ${params.args.map(value => value.value ?? value.description).join(' ')}`);
    }
    if (method === 'Inspector.targetCrashed') this.errors.push('the page crashed');
    if (method === 'Network.requestWillBeSent') this.requests.push(params.request.url);
    if (method === 'Page.loadEventFired') this.loads += 1;
    if (method === 'Page.fileChooserOpened') this.choosers += 1;
    if (method === 'Page.javascriptDialogOpening') this.answerDialog(params);
  }

  answerDialog({ type, message }) {
    this.dialogs.push({ type, message });
    this.ask('Page.handleJavaScriptDialog', { accept: this.acceptDialogs }).catch(() => {});
  }

  async prepare({ width = 1366, height = 768, mobile = false, before = null }) {
    await Promise.all([
      ...PARTS.map(part => this.ask(`${part}.enable`)),
      this.ask('Performance.enable', { timeDomain: 'threadTicks' }),
      this.ask('Page.setInterceptFileChooserDialog', { enabled: true }),
      // Each page is as if its window were the one in front.
      this.ask('Emulation.setFocusEmulationEnabled', { enabled: true }),
      this.resize({ width, height, mobile }),
      this.ask('Emulation.setTouchEmulationEnabled', { enabled: mobile }),
      before && this.ask('Page.addScriptToEvaluateOnNewDocument', { source: before }),
    ]);
  }

  resize({ width, height, mobile = false }) {
    return this.ask('Emulation.setDeviceMetricsOverride', { width, height, deviceScaleFactor: 1, mobile });
  }

  async goto(address) {
    const loaded = this.loads;
    const { errorText } = await this.ask('Page.navigate', { url: address });
    if (errorText) throw new Error(`${address}: ${errorText}`);
    await until(() => this.loads > loaded, { pause: 2, milliseconds: 20_000 });
  }

  /** task: a function that is sent into the page as text, and called there with these values, which travel as JSON. */
  async evaluate(task, ...values) {
    const expression = `(${task})(${values.map(value => JSON.stringify(value)).join(', ')})`;
    const options = { expression, awaitPromise: true, returnByValue: true, userGesture: true };
    const { result, exceptionDetails } = await this.ask('Runtime.evaluate', options);
    if (exceptionDetails) throw new Error(thrownText(exceptionDetails));
    return result.value;
  }

  async press(key, modifiers) {
    for (const event of chromiumKey(key, modifiers)) await this.ask('Input.dispatchKeyEvent', event);
  }

  type(text) {
    return this.ask('Input.insertText', { text });
  }

  /** kind: mousePressed, mouseMoved or mouseReleased */
  mouse(kind, [x, y]) {
    const buttons = kind === 'mouseReleased' ? 0 : 1;
    const clickCount = kind === 'mouseMoved' ? 0 : 1;
    return this.ask('Input.dispatchMouseEvent', { type: kind, x, y, button: 'left', buttons, clickCount });
  }

  async clickAt(place) {
    await this.mouse('mousePressed', place);
    await this.mouse('mouseReleased', place);
  }

  async tapAt([x, y]) {
    await this.ask('Input.dispatchTouchEvent', { type: 'touchStart', touchPoints: [{ x, y }] });
    await this.ask('Input.dispatchTouchEvent', { type: 'touchEnd', touchPoints: [] });
  }

  async drag(from, to, steps = 6) {
    await this.mouse('mousePressed', from);
    for (const place of between(from, to, steps)) await this.mouse('mouseMoved', place);
    await this.mouse('mouseReleased', to);
  }

  async dragByTouch(from, to, steps = 6) {
    const point = ([x, y]) => [{ x, y }];
    await this.ask('Input.dispatchTouchEvent', { type: 'touchStart', touchPoints: point(from) });
    for (const place of between(from, to, steps)) {
      await this.ask('Input.dispatchTouchEvent', { type: 'touchMove', touchPoints: point(place) });
    }
    await this.ask('Input.dispatchTouchEvent', { type: 'touchEnd', touchPoints: [] });
  }

  /** Puts files of this machine into a file field, as its dialogue does. */
  async giveFiles(selector, files) {
    const { root } = await this.ask('DOM.getDocument');
    const { nodeId } = await this.ask('DOM.querySelector', { nodeId: root.nodeId, selector });
    await this.ask('DOM.setFileInputFiles', { nodeId, files });
  }

  /** What is in sight, as PNG. */
  async screenshot(file) {
    const shot = await this.ask('Page.captureScreenshot', { format: 'png' });
    fs.writeFileSync(file, Buffer.from(shot.data, 'base64'));
  }

  /** medium: print, or '' for what it is */
  showAs(medium) {
    return this.ask('Emulation.setEmulatedMedia', { media: medium });
  }

  /** What the printer would get, as PDF bytes. Backgrounds are left out, as browsers do unless told otherwise. */
  async pdf() {
    const paper = await this.ask('Page.printToPDF', { printBackground: false, preferCSSPageSize: true });
    return Buffer.from(paper.data, 'base64');
  }

  /** Milliseconds that the page's own thread was at work, whatever else the machine does. */
  async cpuTime() {
    const { metrics } = await this.ask('Performance.getMetrics');
    return metrics.find(({ name }) => name === 'TaskDuration').value * 1000;
  }

  /**
   * Milliseconds of the page's own time that a task takes. Drawing on the screen, which follows, may be in it or not.
   */
  async cpuTimeOf(task, ...values) {
    const before = await this.cpuTime();
    await this.evaluate(task, ...values);
    return await this.cpuTime() - before;
  }

  /** What assistive technology is told: roles and names. */
  async accessibleParts() {
    await this.ask('Accessibility.enable');
    const { nodes } = await this.ask('Accessibility.getFullAXTree');
    await this.ask('Accessibility.disable');
    return nodes.filter(part => !part.ignored).map(part => ({ role: part.role?.value, name: part.name?.value ?? '' }));
  }

  async close() {
    this.stopListening();
    await this.browser.ask('Target.closeTarget', { targetId: this.targetId }).catch(() => {});
  }
}

const thrownText = details => details.exception?.description ?? details.exception?.value ?? details.text;

function between(from, to, steps) {
  const places = [];
  for (let step = 1; step <= steps; step += 1) {
    places.push([0, 1].map(axis => from[axis] + ((to[axis] - from[axis]) * step) / steps));
  }
  return places;
}

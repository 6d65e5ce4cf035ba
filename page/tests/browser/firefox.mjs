// Firefox, driven by WebDriver BiDi over a websocket of this machine.
import { spawn } from 'node:child_process';
import fs from 'node:fs';
import os from 'node:os';
import path from 'node:path';
import { Exchange } from './exchange.mjs';
import { FirefoxPage } from './firefox-page.mjs';
import { findProgram, until } from './tools.mjs';
import { openWebsocket } from './websocket.mjs';

export const FIREFOX_NAMES = ['firefox-esr', 'firefox'];

const EVENTS = ['log.entryAdded', 'network.beforeRequestSent', 'browsingContext.userPromptOpened'];

// Nothing of Firefox's own may ask the network while the cases watch it.
const SETTINGS = {
  'app.update.auto': false,
  'browser.shell.checkDefaultBrowser': false,
  'browser.startup.page': 0,
  'datareporting.policy.dataSubmissionEnabled': false,
  'dom.disable_beforeunload': false,
  'network.captive-portal-service.enabled': false,
  'network.connectivity-service.enabled': false,
  'remote.active-protocols': 1,
  'toolkit.telemetry.enabled': false,
};

export async function launchFirefox() {
  const folder = fs.mkdtempSync(path.join(os.tmpdir(), 'page-firefox-'));
  const setting = ([name, value]) => `user_pref("${name}", ${JSON.stringify(value)});\n`;
  fs.writeFileSync(path.join(folder, 'user.js'), Object.entries(SETTINGS).map(setting).join(''));
  const flags = ['--headless', '--remote-debugging-port=0', '--no-remote', '--profile', folder, 'about:blank'];
  const home = { ...process.env, HOME: folder, MOZ_DISABLE_CONTENT_SANDBOX: process.getuid?.() === 0 ? '1' : '' };
  const program = spawn(findProgram(FIREFOX_NAMES), flags, { stdio: ['ignore', 'ignore', 'pipe'], env: home });
  const browser = new Firefox(program, folder);
  try {
    await browser.connect();
  } catch (fault) {
    await browser.close();
    throw fault;
  }
  return browser;
}

class Firefox {
  constructor(program, folder) {
    Object.assign(this, { name: 'firefox', program, folder, said: '' });
    this.gone = new Promise(resolve => program.once('exit', resolve));
    program.stderr.setEncoding('utf8');
    program.stderr.on('data', text => { this.said += text; });
  }

  /** It says on standard error where it listens. */
  async connect() {
    const where = () => /WebDriver BiDi listening on (ws:\S+)/.exec(this.said)?.[1];
    const address = await until(where, { milliseconds: 60_000, pause: 50 });
    if (!address) throw new Error(`Firefox did not say where it listens: ${this.said.slice(0, 400)}`);
    const socket = await openWebsocket(
      `${address}/session`,
      text => this.exchange.hear(text),
      () => this.exchange.end('Firefox is gone'),
    );
    this.exchange = new Exchange(socket.send);
    const capabilities = { alwaysMatch: { unhandledPromptBehavior: { default: 'ignore', beforeUnload: 'ignore' } } };
    await this.ask('session.new', { capabilities });
    await this.ask('session.subscribe', { events: EVENTS });
  }

  ask(method, params) {
    return this.exchange.ask(method, params);
  }

  /** A storage of its own, as of a person who never opened the page before. */
  async openProfile() {
    const { userContext } = await this.ask('browser.createUserContext', {});
    return new FirefoxProfile(this, userContext);
  }

  async close() {
    if (this.exchange) await this.ask('browser.close').catch(() => {});
    const late = setTimeout(() => this.program.kill('SIGKILL'), 5000);
    if (!this.exchange) this.program.kill('SIGKILL');
    await this.gone;
    clearTimeout(late);
    fs.rmSync(this.folder, { recursive: true, force: true, maxRetries: 5 });
  }
}

class FirefoxProfile {
  constructor(browser, userContext) {
    Object.assign(this, { browser, userContext });
  }

  /** options: width, height, and before, a script that runs before the page's own */
  async openPage(options = {}) {
    const { browser, userContext } = this;
    const { context } = await browser.ask('browsingContext.create', { type: 'tab', userContext });
    const page = new FirefoxPage(browser, context);
    await page.prepare(options);
    return page;
  }

  async close() {
    await this.browser.ask('browser.removeUserContext', { userContext: this.userContext });
  }
}

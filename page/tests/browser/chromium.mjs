// Chromium, driven over its debugging pipe: no socket is opened and no package is needed.
import { spawn } from 'node:child_process';
import fs from 'node:fs';
import os from 'node:os';
import path from 'node:path';
import { StringDecoder } from 'node:string_decoder';
import { ChromiumPage } from './chromium-page.mjs';
import { Exchange } from './exchange.mjs';
import { findProgram } from './tools.mjs';

export const CHROMIUM_NAMES = ['chromium', 'chromium-browser', 'google-chrome', 'chrome'];

const FLAGS = [
  '--headless=new', '--remote-debugging-pipe', '--disable-gpu', '--disable-dev-shm-usage', '--disable-extensions',
  '--disable-background-networking', '--disable-component-update', '--disable-default-apps', '--disable-sync',
  '--no-first-run', '--no-default-browser-check', '--hide-scrollbars', '--force-color-profile=srgb', '--mute-audio',
];

/** Root has no sandbox; others lack it in some containers, where the second try goes without. */
export async function launchChromium() {
  const withoutSandbox = () => launchWith(['--no-sandbox']);
  return process.getuid?.() === 0 ? withoutSandbox() : launchWith([]).catch(withoutSandbox);
}

async function launchWith(flags) {
  const folder = fs.mkdtempSync(path.join(os.tmpdir(), 'page-chromium-'));
  const said = fs.openSync(path.join(folder, 'said'), 'w');
  const words = [...FLAGS, ...flags, `--user-data-dir=${folder}`, 'about:blank'];
  const program = spawn(findProgram(CHROMIUM_NAMES), words, { stdio: ['ignore', said, said, 'pipe', 'pipe'] });
  fs.closeSync(said);
  const browser = new Chromium(program, folder);
  try {
    await browser.ask('Browser.getVersion');
  } catch (fault) {
    await browser.close();
    throw fault;
  }
  return browser;
}

class Chromium {
  constructor(program, folder) {
    Object.assign(this, { name: 'chromium', program, folder });
    this.gone = new Promise(resolve => program.once('exit', resolve));
    const [, , , questions, answers] = program.stdio;
    this.exchange = new Exchange(text => questions.write(`${text}\0`));
    readMessages(answers, text => this.exchange.hear(text));
    questions.on('error', () => {});
    this.gone.then(() => this.exchange.end('Chromium is gone'));
  }

  ask(method, params, sessionId) {
    return this.exchange.ask(method, params, sessionId ? { sessionId } : {});
  }

  /** A storage of its own, as of a person who never opened the page before. */
  async openProfile() {
    const { browserContextId } = await this.ask('Target.createBrowserContext', { disposeOnDetach: true });
    const downloads = fs.mkdtempSync(path.join(this.folder, 'saved-'));
    const where = { behavior: 'allow', browserContextId, downloadPath: downloads, eventsEnabled: true };
    await this.ask('Browser.setDownloadBehavior', where);
    return new ChromiumProfile(this, browserContextId, downloads);
  }

  async close() {
    await this.ask('Browser.close').catch(() => this.program.kill('SIGKILL'));
    await this.gone;
    fs.rmSync(this.folder, { recursive: true, force: true, maxRetries: 5 });
  }
}

class ChromiumProfile {
  constructor(browser, browserContextId, downloads) {
    Object.assign(this, { browser, browserContextId, downloads });
    this.pages = new Set();
  }

  /** options: width, height, mobile, and before, a script that runs before the page's own */
  async openPage(options = {}) {
    const { browser, browserContextId } = this;
    const { targetId } = await browser.ask('Target.createTarget', { url: 'about:blank', browserContextId });
    const { sessionId } = await browser.ask('Target.attachToTarget', { targetId, flatten: true });
    this.pages.add(targetId);
    const page = new ChromiumPage(browser, { targetId, sessionId });
    await page.prepare(options);
    return page;
  }

  /**
   * Runs `save`, which makes a page offer a file: gives that file's name and bytes, or null if none comes for a while.
   */
  async saved(save, patience = 5000) {
    let stop;
    const ended = new Promise(resolve => {
      const names = new Map();
      stop = this.browser.exchange.listen(({ method, params }) => {
        // Pages of other profiles may save at the same time.
        const isOurs = method === 'Browser.downloadWillBegin' && this.pages.has(params.frameId);
        if (isOurs) names.set(params.guid, params.suggestedFilename);
        if (method !== 'Browser.downloadProgress' || params.state === 'inProgress' || !names.has(params.guid)) return;
        resolve({ name: names.get(params.guid), state: params.state });
      });
    });
    const late = new Promise(resolve => setTimeout(resolve, patience, null).unref());
    await save();
    const download = await Promise.race([ended, late]);
    stop();
    if (download?.state !== 'completed') return null;
    const file = path.join(this.downloads, download.name);
    const bytes = fs.readFileSync(file);
    fs.unlinkSync(file);
    return { name: download.name, bytes };
  }

  async close() {
    await this.browser.ask('Target.disposeBrowserContext', { browserContextId: this.browserContextId });
  }
}

/** Messages in the pipe end with a zero byte; a piece that arrives may have many, or a part of one. */
function readMessages(pipe, hear) {
  const decoder = new StringDecoder('utf8');
  let begun = '';
  pipe.on('data', piece => {
    const texts = (begun + decoder.write(piece)).split('\0');
    begun = texts.pop();
    texts.forEach(hear);
  });
}

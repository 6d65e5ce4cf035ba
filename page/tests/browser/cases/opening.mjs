// The page opens, shows the worked network, says what the programs say, and keeps everything to itself.
import crypto from 'node:crypto';
import fs from 'node:fs';
import net from 'node:net';
import path from 'node:path';
import { book } from '../books.mjs';
import { includes, same } from '../check.mjs';
import * as programs from '../programs.mjs';
import { sleep, TOP, until } from '../tools.mjs';

const BOTH = ['chromium', 'firefox'];
const BOOKS = [
  'worked', 'memorandum_figure', 'parallel_lines', 'past_the_last_junction', 'two_pieces', 'town12', 'town25',
  'town40', 'town60', 'grid6', 'chain20', 'star15', 'ring12', 'free_tails', 'memorandum_network', 'three_classes',
  'classes25',
];
const LARGEST_BOOKS = ['full', 'slowest', 'random256', 'parallel512', 'city256', 'classes_full'];
const FEW_BOOKS = [
  'memorandum_figure', 'memorandum_network', 'past_the_last_junction', 'two_pieces', 'three_classes', 'town60',
  'random256',
];

export const cases = [
  { name: 'worked-network-opens', run: workedNetworkOpens, browsers: BOTH, needs: ['programs'] },
  { name: 'text-equals-report-program', run: textEqualsReportProgram, browsers: BOTH, needs: ['programs'] },
  { name: 'text-equals-sketch-program', run: textEqualsSketchProgram, browsers: BOTH, needs: ['programs'] },
  { name: 'heights-equal-program', run: heightsEqualProgram, browsers: BOTH, needs: ['programs'] },
  { name: 'nothing-leaves-the-page', run: nothingLeavesThePage, browsers: BOTH },
  { name: 'glance-says-it-in-words', run: glanceSaysItInWords },
  { name: 'foot-names-the-core', run: footNamesTheCore },
  { name: "exported-names-are-not-the-browser's", run: exportedNamesAreOurs, browsers: BOTH },
  { name: 'text-is-copied', run: textIsCopied, window: { before: `(${watchClipboard})()` } },
  { name: 'text-is-copied-without-clipboard', run: textIsCopied, window: { before: `(${denyClipboard})()` } },
];

async function workedNetworkOpens(desk) {
  same(await desk.texts(), await programs.allTexts(book('worked')), 'the texts');
  same(await desk.tiles(), [
    '2 of 3 loops OVER / 1 within',
    'Every line is checked / 7 lines, 5 marks, 1 piece',
    'Heights adjusted / 15 sweeps, 1 held mark',
  ], 'the glance');
  same((await desk.loops()).map(loop => [loop.verdict, loop.misclosure, loop.length, loop.lines, loop.marks]), [
    ['✗ OVER', '−40.000', '4450', '6 −1 5', '4–3–1–4'],
    ['✓ within', '−5.000', '7600', '4 5 −7', '5–1–4–5'],
    ['✗ OVER', '65.000', '6750', '3 2 −6 −7', '5–2–3–4–5'],
  ], 'the loops');
  const { fields, marks } = await desk.picture();
  same([marks.length, fields.filter(field => field.isOver).length, fields.length], [5, 2, 3], 'the picture');
  same([await desk.value('#name'), await desk.isUnsaved()], ['worked', false], 'name and state');
  includes(await desk.heightsPanel(), '102.123536', 'the heights');
}

/** Opens each book and holds one of its texts to what that program prints. */
async function holdTexts(desk, program, names) {
  // All are asked at once, since the programs may run in an emulator.
  names.forEach(name => programs[program](book(name)));
  for (const name of names) {
    includes(await desk.openBook(book(name), `${name}.book`), `Opened ${name}`, 'the message');
    same((await desk.texts())[program], await programs[program](book(name)), name);
  }
  return `${names.length} books`;
}

function textEqualsReportProgram(desk, { browser }) {
  return holdTexts(desk, 'report', browser === 'firefox' ? FEW_BOOKS : [...BOOKS, ...LARGEST_BOOKS]);
}

function textEqualsSketchProgram(desk, { browser }) {
  return holdTexts(desk, 'sketch', browser === 'firefox' ? FEW_BOOKS : [...BOOKS, ...LARGEST_BOOKS]);
}

function heightsEqualProgram(desk, { browser }) {
  return holdTexts(desk, 'heights', browser === 'firefox' ? FEW_BOOKS : [...BOOKS, 'slowest']);
}

/** Inside the page: every way out by script that a policy can shut. What is stopped at once throws. */
function tryByScript(address) {
  const ways = [
    () => fetch(address).catch(() => {}),
    () => fetch(address, { mode: 'no-cors', method: 'POST', body: 'book' }).catch(() => {}),
    () => {
      const asked = new XMLHttpRequest();
      asked.open('GET', `${address}asked`);
      asked.send();
    },
    () => navigator.sendBeacon(address, 'book'),
    () => new WebSocket(address.replace('http', 'ws')),
    () => new EventSource(address),
    () => new Worker(address),
    () => import(`${address}module`).catch(() => {}),
    () => new FontFace('f', `url(${address}font)`).load().catch(() => {}),
    () => { new Image().src = `${address}image`; },
    () => { document.body.style.backgroundImage = `url(${address}ground)`; },
  ];
  ways.forEach(way => {
    try { way(); } catch { /* as it should be */ }
  });
}

/** Inside the page: every way out by an element. */
function tryByElements(address) {
  const add = (name, attributes) => {
    try {
      const element = Object.assign(document.createElement(name), attributes);
      document.body.append(element);
      if (name === 'form') element.submit();
    } catch { /* as it should be */ }
  };
  for (const rel of ['stylesheet', 'prefetch', 'preload', 'preconnect', 'modulepreload', 'icon', 'manifest']) {
    add('link', { rel, href: address + rel });
  }
  for (const name of ['script', 'iframe', 'embed', 'video', 'audio']) add(name, { src: address + name });
  add('object', { data: `${address}object` });
  add('form', { action: `${address}form`, method: 'post' });
}

const loadImage = address => new Promise(resolve => {
  Object.assign(new Image(), { onload: resolve, onerror: resolve }).src = address;
});

/** A listener on this machine that notes who knocks, and what for. */
async function listener() {
  const knocks = [];
  const server = net.createServer(socket => {
    const knock = knocks.push('nothing') - 1;
    socket.on('data', text => { knocks[knock] = text.toString().split('\r\n')[0]; });
    socket.on('error', () => {});
    socket.end('HTTP/1.1 204 No Content\r\nConnection: close\r\n\r\n');
  });
  await new Promise(resolve => server.listen(0, '127.0.0.1', resolve));
  return { address: `http://127.0.0.1:${server.address().port}/`, knocks, close: () => server.close() };
}

async function nothingLeavesThePage(desk) {
  const { address, knocks, close } = await listener();
  try {
    const other = await desk.profile.openPage();
    await other.evaluate(loadImage, `${address}heard`);
    await other.close();
    includes(knocks.join(), 'GET /heard', 'a page without a policy is heard, so that silence means something');
    await sleep(300);
    knocks.length = 0;
    await desk.openBook(book('two_pieces'), 'two.book');
    await desk.rerun(1, '0.5');
    await desk.heightsPanel();
    same(desk.page.errors, [], 'page errors');
    const schemes = new Set(desk.page.requests.map(url => url.split(':')[0]));
    same([...schemes].filter(scheme => !['file', 'data', 'blob'].includes(scheme)), [], 'requests');
    await desk.forgivingErrors(async () => {
      await desk.evaluate(tryByScript, address);
      await desk.evaluate(tryByElements, address);
      await sleep(500);
    });
    // Chromium opens a line for a frame or a form before it asks the policy; nothing may be said on it.
    same(knocks.filter(knock => knock !== 'nothing'), [], 'what the listener heard');
  } finally {
    close();
  }
}

async function glanceSaysItInWords(desk) {
  const wanted = {
    two_pieces: ['Both loops within / the tolerance', 'Every line is checked / 5 lines, 5 marks, 2 pieces'],
    chain20: ['No loops / nothing closes yet', '19 lines / 20 marks, 1 piece'],
    ring12: ['12 lines, 12 marks, 1 piece'],
    past_the_last_junction: ['NOT CHECKED: lines 4 5 6 7', 'The loop is within', '7 lines / 7 marks, 1 piece'],
  };
  for (const [name, parts] of Object.entries(wanted)) {
    await desk.openBook(book(name), `${name}.book`);
    const glance = (await desk.tiles()).join(' | ');
    for (const part of parts) includes(glance, part, name);
  }
  await desk.newBook();
  const [loops, lines] = await desk.tiles();
  same([loops, lines], ['No loops / nothing closes yet', '0 lines / 1 mark, 1 piece'], 'an empty book');
}

async function footNamesTheCore(desk) {
  const core = fs.readFileSync(path.join(TOP, 'target', 'page', 'level.wasm'));
  const digits = crypto.createHash('sha256').update(core).digest('hex').slice(0, 12);
  same(await desk.text('#core-id'), digits, 'the digits of the core');
  includes(await desk.text('.foot, footer'), 'Nothing is sent anywhere.', 'the foot');
}

/** The modules share one scope: one that means something of the browser must not be given what another exports. */
async function exportedNamesAreOurs(desk) {
  const folder = path.join(TOP, 'page', 'src');
  const source = fs.readdirSync(folder).map(name => fs.readFileSync(path.join(folder, name), 'utf8')).join('');
  const names = Array.from(source.matchAll(/^export (?:async )?(?:const|function|class) (\w+)/gm), ([, name]) => name);
  const blank = await desk.profile.openPage();
  const taken = await blank.evaluate(all => all.filter(name => name in globalThis), [...names, 'print']);
  await blank.close();
  same(taken, ['print'], 'names that the browser has too, and one that it has');
  return `${names.length} names`;
}

/** Runs before the page's own script: what is put into the clipboard is noted. */
function watchClipboard() {
  const writeText = async text => { globalThis.copied = text; };
  Object.defineProperty(navigator, 'clipboard', { value: { writeText } });
}

/** Runs before the page's own script: a browser that gives it no clipboard, but copies what is selected. */
function denyClipboard() {
  Object.defineProperty(navigator, 'clipboard', { value: undefined });
  document.addEventListener('copy', () => { globalThis.copied = String(getSelection()); });
}

async function textIsCopied(desk) {
  const text = Object.values(await desk.texts()).join('\n');
  await desk.click('#copy');
  same(await until(() => desk.text('#copy'), { good: words => words === 'Copied' }), 'Copied', 'the button');
  same((await desk.evaluate(() => globalThis.copied)).trim(), text.trim(), 'what was copied');
}

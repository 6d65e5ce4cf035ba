// Writes the page to standard output, from its parts in page/: node page/assemble.mjs MODULE EXAMPLE-BOOK
//
// A browser takes no script beside a page that was opened from disk. So the modules, from src/main.js on, become one script: each is a
// function that is called once, after those it imports, and gives what it exports. That is known to all that come after it, so that no
// import has to be written out and no two modules may export the same name.
import { createHash } from 'node:crypto';
import { readFileSync } from 'node:fs';
import { squeezed, squeezedMarkup, squeezedStyle } from './squeeze.mjs';

const part = name => readFileSync(new URL(name, import.meta.url), 'utf8');
const sha256 = (bytes, form) => createHash('sha256').update(bytes).digest(form);
const IMPORT = /^import \{([^}]*)\} from '\.\/([a-z-]+\.js)';$/gm;
const EXPORT = /^export ((?:async )?(?:const|function|class) ([A-Za-z_]+))/gm;
const STYLES = ['page.css', 'tables.css', 'picture.css', 'paper.css'];

/** The modules from one on, each after those it imports. Two that import each other have no such order. */
function modulesFrom(name, above = [], found = new Set()) {
  if (above.includes(name)) throw new Error([...above, name].join(' imports '));
  for (const [, , next] of part(`src/${name}`).matchAll(IMPORT)) {
    if (!found.has(next)) modulesFrom(next, [...above, name], found);
  }
  return found.add(name);
}

/** The names that a module exports. */
const exportsOf = name => [...part(`src/${name}`).matchAll(EXPORT)].map(([, , each]) => each);

/** Every name that is imported must be exported where it is said to be, and no name in two places. */
function holdNames(names) {
  const exported = names.flatMap(exportsOf);
  const twice = exported.filter((each, i) => exported.indexOf(each) !== i);
  if (twice.length > 0) throw new Error(`exported by two modules: ${twice.join(', ')}`);
  for (const name of names) {
    for (const [, list, other] of part(`src/${name}`).matchAll(IMPORT)) {
      const missing = list.match(/\w+/g).filter(each => !exportsOf(other).includes(each));
      if (missing.length > 0) throw new Error(`${name} imports ${missing.join(', ')}, which ${other} does not export`);
    }
  }
}

/** A module as a function that is called at once. */
function called(name) {
  const body = part(`src/${name}`).replace(IMPORT, '').replace(EXPORT, '$1');
  if (/^(import|export)\b/m.test(body)) throw new Error(`${name} imports or exports in a form that is not taken here`);
  const exported = `{ ${exportsOf(name).join(', ')} }`;
  return squeezed(`const ${exported} = (() => {\n${body}return ${exported};\n})();\n`);
}

function script(core, example) {
  const inside = { CORE: core, EXAMPLE: example };
  const constants = Object.entries(inside).map(([name, bytes]) => `const ${name} = '${bytes.toString('base64')}';\n`);
  const modules = [...modulesFrom('main.js')];
  holdNames(modules);
  return `'use strict';\n(() => {\n${[...constants, ...modules.map(called)].join('')}})();\n`;
}

/** No network, no inline handlers, no other script or style, and no text that becomes markup. */
const policyFor = (js, css) => [
  "default-src 'none'",
  `script-src 'sha256-${sha256(js, 'base64')}' 'wasm-unsafe-eval'`,
  `style-src 'sha256-${sha256(css, 'base64')}'`,
  'img-src data:',
  "form-action 'none'",
  "base-uri 'none'",
  "require-trusted-types-for 'script'",
  "trusted-types 'none'",
].join('; ');

const [core, example] = process.argv.slice(2).map(name => readFileSync(name));
const js = script(core, example);
const css = STYLES.map(name => squeezedStyle(part(`style/${name}`))).join('');
const parts = { POLICY: policyFor(js, css), STYLE: css, SCRIPT: js, CORE_ID: sha256(core, 'hex').slice(0, 12) };
process.stdout.write(squeezedMarkup(part('page.html')).replace(/@([A-Z_]+)@/g, (whole, name) => parts[name] ?? whole));

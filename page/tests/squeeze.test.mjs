// Scripts, styles and markup without spaces and comments mean the same.
import assert from 'node:assert/strict';
import { readFileSync, readdirSync } from 'node:fs';
import { test } from 'node:test';
import { squeezed, squeezedMarkup, squeezedStyle } from '../squeeze.mjs';

test('comments, indentation and spaces beside signs go', () => {
  assert.equal(squeezed('// why\nconst a = 1; // here\n  /** what\n * it is */\nreturn a + b;\n'), 'const a=1;\nreturn a+b;\n');
});

test('what would run together stays apart', () => {
  assert.equal(squeezed('a + +b - -c; typeof x; new X; 1 / /x/.y;'), 'a+ +b- -c;typeof x;new X;1/ /x/.y;');
});

test('texts, templates and patterns stay as they are', () => {
  const texts = ["'a  // b'", '"x \\" y"', '`p ${ q ? `r ${ s }` : \'}\' } t`'];
  for (const text of texts) assert.equal(squeezed(`x = ${text};`), `x=${text};`);
  assert.equal(squeezed('const P = /[ /]  \\/ \'/g; a / b / c;'), 'const P=/[ /]  \\/ \'/g;a/b/c;');
  assert.equal(squeezed('return /a b/.test(x);'), 'return/a b/.test(x);');
});

test('every module is still a module, and squeezed once it stays', () => {
  const folder = new URL('../src/', import.meta.url);
  for (const name of readdirSync(folder)) {
    const source = readFileSync(new URL(name, folder), 'utf8');
    const small = squeezed(source);
    assert.equal(squeezed(small), small, name);
    const body = small.replace(/^import[^;]*;\n/gm, '').replace(/^export /gm, '');
    assert.doesNotThrow(() => new Function(`'use strict'; async () => { ${body} }`), name);
  }
});

test('styles lose comments, lines and spaces beside signs, but no space that means something', () => {
  const style = '/* why */\n.a, .b > i {\n  margin: 0 calc(1em - 2px);\n  font: 1em "A, B: c; d", serif;\n}\n\n'
    + '@media (width: 4em) {\n  p :is(b) { top: 0; }\n}\n';
  assert.equal(squeezedStyle(style), '.a,.b > i{margin:0 calc(1em - 2px);font:1em "A, B: c; d",serif}@media (width:4em){p :is(b){top:0}}');
});

test('markup loses its indentation', () => {
  assert.equal(squeezedMarkup('<p>\n  a b\n    c</p>\n'), '<p>\na b\nc</p>\n');
});

// Text to whole numbers and back, exactly.
import assert from 'node:assert/strict';
import { test } from 'node:test';
import {
  decimalText, faultText, metres, millimetres, named, namedFew, plural, rateText, short, signedLine, wholeFrom,
} from '../src/text.js';

const whole = (text, decimals = 6) => wholeFrom(text, decimals).whole;
const fault = (text, decimals = 6) => wholeFrom(text, decimals).fault;

test('digits are moved, not multiplied', () => {
  assert.equal(whole('2.428'), 2_428_000n);
  assert.equal(whole('-0.000001'), -1n);
  assert.equal(whole('0,1234'), 123_400n);
  assert.equal(whole('00012.5'), 12_500_000n);
  assert.equal(whole('.5'), 500_000n);
  assert.equal(whole('5.'), 5_000_000n);
  assert.equal(whole('99999999999.999999'), 99_999_999_999_999_999n);
  assert.equal(whole('12.0', 1), 120n);
  assert.equal(whole('1600', 0), 1600n);
});

test('signs: plus, minus, and the dashes that spreadsheets write', () => {
  assert.equal(whole('+3'), 3_000_000n);
  for (const minus of ['-', '−', '–', '‒']) assert.equal(whole(`${minus}1.5`), -1_500_000n);
  assert.equal(whole('-0'), 0n);
  for (const text of ['--1', '+-1', '1-', '(1)', '- 1']) assert.equal(fault(text), 'not a number');
});

test('what is no number has a fault, and never a value', () => {
  for (const text of ['', ' ', '\t']) assert.equal(fault(text), 'empty');
  const words = ['abc', '1e3', '0x10', 'NaN', 'Infinity', '٣', '１２', '½', '1m'];
  for (const text of [...words, '1 000', '1_000', "1'000", '.', '-', ',', '1.2.3', '1,2,3']) {
    assert.equal(fault(text), 'not a number', text);
  }
  assert.equal(fault('1.0000001'), 'too fine');
  assert.equal(fault('1.5', 0), 'not whole');
  assert.equal(fault('1.', 0), 'not whole');
  assert.equal(fault('1.23', 1), 'too fine');
  assert.equal(fault('100000000000'), 'too long');
  assert.equal(fault('18446744073709551617', 0), 'too long');
  assert.equal(whole(`${'0'.repeat(150)}1`, 0), 1n);
});

test('every number that is written is read back', () => {
  for (const number of [0n, 1n, -1n, 999_999n, 1_000_000n, -12_345_678n, 99_999_999_999_999_999n]) {
    for (const least of [0, 3, 6]) assert.equal(whole(metres(number, least, '-')), number);
    assert.equal(millimetres(number, '-').replace('.', '').replace(/^(-?)0+(?=\d)/, '$1'), String(number));
  }
});

test('as many decimals as are asked for, and more only where they are needed', () => {
  assert.equal(metres(2_410_000n), '2.410000');
  assert.equal(metres(2_410_000n, 3), '2.410');
  assert.equal(metres(2_410_010n, 3), '2.41001');
  assert.equal(metres(-1n), '−0.000001');
  assert.equal(millimetres(-40_000n), '−40.000');
  assert.equal(decimalText(120n, 1, 1, '-'), '12.0');
  assert.equal(decimalText(5n, 0, 0, '-'), '5');
});

test('rates are rounded as the sheet of heights rounds them', () => {
  assert.equal(rateText(-5.76875), '−5.769');
  assert.equal(rateText(7.2665), '7.267');
  assert.equal(rateText(0.0004999, '-'), '0.000');
  assert.equal(rateText(-0.0001, '-'), '-0.000');
});

test('words', () => {
  assert.equal(faultText('not a number', ' abc ', 6), 'is not a number: “abc”');
  assert.equal(faultText('too fine', '1.23', 1), 'has more than 1 decimal: “1.23”');
  assert.equal(short('a'.repeat(30)).length, 24);
  assert.equal(plural(1, 'line'), '1 line');
  assert.equal(plural(0, 'line'), '0 lines');
  assert.equal(named('line', [4, 5]), 'lines 4 5');
  const numbers = many => Array.from({ length: many }, (_, i) => i + 1);
  assert.equal(namedFew('line', numbers(14)), 'lines 1 2 3 4 5 6 7 8 9 10 11 12 13 14');
  assert.equal(namedFew('line', numbers(15)), 'lines 1 2 3 4 5 6 7 8 9 10 11 12 and 3 more');
  assert.equal(signedLine(-7), '−7');
});

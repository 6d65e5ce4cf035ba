// Texts that a beginner, a spreadsheet or somebody with a grudge may put into a field.
export const RUBBISH = [
  '', ' ', 'abc', '1e3', '1E400', '-', '+', '.', ',', '-.', '--1', '+-1', '1.2.3', '1,2,3', '1.234,5', '0x10', '0b1',
  'NaN', 'Infinity', '-Infinity', 'null', 'undefined', '٣', '１２', '½', '1 000', '1\u00a0000', '1_000', "1'000", '−1',
  '–1', '1-', '(1)', '1m', '1 m', '$1',
  '18446744073709551617', '-9223372036854775809', '9'.repeat(200), `0.${'0'.repeat(300)}1`, `${'0'.repeat(150)}1`,
  '<img src=x onerror=window.wasRun=1>', '"><script>window.wasRun=1</script>', "'; alert(1); '", '${1}', '{{1}}',
  '\u202e12', '👷', '\t1', '1\u0000', '%s%n', '../../x', 'a'.repeat(5000), '1.0000001', '-0', '-0.000000', '00', '+5',
  '5.', '.5', ',5', '5,', '\ud800', '\ufeff7',
];

// The keys that cases press, by the names that a page sees in `event.key`, as each protocol wants them.

const NAMED = {
  Enter: { code: 13, text: '\r', driver: '\uE007' },
  Tab: { code: 9, driver: '\uE004' },
  Escape: { code: 27, driver: '\uE00C' },
  Backspace: { code: 8, driver: '\uE003' },
  Delete: { code: 46, driver: '\uE017' },
  Home: { code: 36, driver: '\uE011' },
  End: { code: 35, driver: '\uE010' },
  ArrowLeft: { code: 37, driver: '\uE012' },
  ArrowUp: { code: 38, driver: '\uE013' },
  ArrowRight: { code: 39, driver: '\uE014' },
  ArrowDown: { code: 40, driver: '\uE015' },
  F1: { code: 112, driver: '\uE031' },
  F2: { code: 113, driver: '\uE032' },
  F8: { code: 119, driver: '\uE038' },
  ' ': { code: 32, text: ' ', driver: ' ' },
};

// Chromium does not turn keys with Ctrl into edits of a field by itself when they come from the protocol.
const EDITS = { a: 'selectAll', c: 'copy', v: 'paste', x: 'cut', y: 'redo', z: 'undo' };

const CONTROL = 2;
const SHIFT = 8;

/** The two events of one key for Chromium's Input.dispatchKeyEvent. */
export function chromiumKey(key, { control = false, shift = false } = {}) {
  const named = NAMED[key];
  const text = named ? named.text : key;
  const typed = text !== undefined && !control;
  const event = {
    key,
    code: codeName(key),
    windowsVirtualKeyCode: named ? named.code : key.toUpperCase().charCodeAt(0),
    modifiers: (control ? CONTROL : 0) + (shift ? SHIFT : 0),
  };
  const down = { ...event, type: typed ? 'keyDown' : 'rawKeyDown' };
  if (typed) down.text = text;
  if (control && EDITS[key]) down.commands = [EDITS[key]];
  return [down, { ...event, type: 'keyUp' }];
}

function codeName(key) {
  if (key === ' ') return 'Space';
  return key.length === 1 ? `Key${key.toUpperCase()}` : key;
}

/** The steps of one key for WebDriver's input.performActions. */
export function driverKey(key, { control = false, shift = false } = {}) {
  const value = NAMED[key]?.driver ?? key;
  const held = [...(control ? ['\uE009'] : []), ...(shift ? ['\uE008'] : [])];
  return [
    ...held.map(modifier => ({ type: 'keyDown', value: modifier })),
    { type: 'keyDown', value },
    { type: 'keyUp', value },
    ...held.reverse().map(modifier => ({ type: 'keyUp', value: modifier })),
  ];
}

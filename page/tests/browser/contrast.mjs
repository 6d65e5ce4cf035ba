// Inside the page: texts whose contrast with their ground is too low. Each function is sent there as text, and so has
// all it needs in itself.

/** Texts of a part of the page whose contrast is under 4.5, with what it is. */
export function lowContrasts(scope) {
  const numbers = colour => (colour.match(/[\d.]+/g) ?? []).map(Number);
  const isSolid = colour => colour.length === 3 || colour[3] > 0.9;
  const channel = value => (value / 255 <= 0.03928 ? value / 255 / 12.92 : ((value / 255 + 0.055) / 1.055) ** 2.4);
  const light = ([red, green, blue]) => 0.2126 * channel(red) + 0.7152 * channel(green) + 0.0722 * channel(blue);
  const contrast = (one, other) => {
    const [dark, bright] = [light(one), light(other)].sort((p, q) => p - q);
    return (bright + 0.05) / (dark + 0.05);
  };
  const groundOf = element => {
    for (let each = element; each; each = each.parentElement) {
      const ground = numbers(getComputedStyle(each).backgroundColor);
      if (isSolid(ground)) return ground;
    }
    return [255, 255, 255];
  };
  const textOf = element => {
    const own = [...element.childNodes].filter(each => each.nodeType === Node.TEXT_NODE);
    return element.matches('input') ? element.value : own.map(each => each.textContent.trim()).join('');
  };
  const isText = element => !element.closest('svg, script, style, noscript');
  const isRead = element => isText(element) && !element.disabled && element.checkVisibility();
  const low = new Set();
  for (const element of document.querySelectorAll(`${scope} *`)) {
    if (!textOf(element) || !isRead(element)) continue;
    const is = contrast(numbers(getComputedStyle(element).color), groundOf(element));
    if (is < 4.5) low.add(`${element.className} “${textOf(element).slice(0, 20)}” ${is.toFixed(2)}`);
  }
  return [...low];
}

/** Texts of the picture whose contrast with the box, mark or badge on which they stand is under 4.5. */
export function lowPictureContrasts() {
  const numbers = colour => colour.match(/[\d.]+/g).slice(0, 3).map(Number);
  const channel = value => (value / 255 <= 0.03928 ? value / 255 / 12.92 : ((value / 255 + 0.055) / 1.055) ** 2.4);
  const light = ([red, green, blue]) => 0.2126 * channel(red) + 0.7152 * channel(green) + 0.0722 * channel(blue);
  const groundOf = text => {
    const { x, y, width, height } = text.getBoundingClientRect();
    const under = document.elementsFromPoint(x + width / 2, y + height / 2)
      .filter(each => each !== text && !each.contains(text) && each.closest('svg'));
    const fills = under.map(each => getComputedStyle(each).fill);
    return fills.find(fill => fill.startsWith('rgb') && !fill.endsWith(', 0)')) ?? 'rgb(255, 255, 255)';
  };
  return [...document.querySelectorAll('#svgbox svg text')].map(text => {
    const [dark, bright] = [getComputedStyle(text).fill, groundOf(text)].map(colour => light(numbers(colour)))
      .sort((p, q) => p - q);
    return [text, (bright + 0.05) / (dark + 0.05)];
  }).filter(([, is]) => is < 4.5)
    .map(([text, is]) => `${text.getAttribute('class')} “${text.textContent}” ${is.toFixed(2)} on ${groundOf(text)}`);
}

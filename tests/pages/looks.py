"""What is asked of a page in the browser."""

# The elements that reach beyond the page, or whose letters are cut off.
OVERFLOW = """
(() => {
  const found = [];
  const wide = document.documentElement.scrollWidth;
  if (wide > innerWidth) found.push('the page: ' + wide);
  for (const one of document.querySelectorAll('main *')) {
    if (!one.checkVisibility() || one.closest('svg') && one.tagName !== 'svg') continue;
    const box = one.getBoundingClientRect();
    const style = getComputedStyle(one);
    if (style.display === 'inline' || one.closest('.scroll')) continue;
    if (box.right > innerWidth + 1) found.push(one.tagName + ' ' + one.className + ' to ' + Math.round(box.right));
    if (one.scrollWidth > one.clientWidth + 1 && one.clientWidth)
      found.push(one.tagName + ' ' + one.className + ' is too narrow');
  }
  return found.slice(0, 5);
})()
"""

# The texts that do not stand out from what is behind them: a contrast of less than 4.5.
CONTRAST = """
(() => {
  const canvas = document.createElement('canvas').getContext('2d', { willReadFrequently: true });
  canvas.canvas.width = canvas.canvas.height = 1;
  const colours = new Map();
  function rgba(colour) {
    if (!colours.has(colour)) {
      canvas.clearRect(0, 0, 1, 1);
      canvas.fillStyle = colour;
      canvas.fillRect(0, 0, 1, 1);
      const [r, g, b, a] = canvas.getImageData(0, 0, 1, 1).data;
      colours.set(colour, [r, g, b, a / 255]);
    }
    return colours.get(colour);
  }
  function light([r, g, b]) {
    const [x, y, z] = [r, g, b].map(part => (part /= 255) <= 0.04045 ? part / 12.92 : ((part + 0.055) / 1.055) ** 2.4);
    return 0.2126 * x + 0.7152 * y + 0.0722 * z;
  }
  function behind(one) {
    if (one.tagName === 'text') {
      const shape = one.previousElementSibling;
      if (shape && shape.tagName === 'rect' && one.parentElement.childElementCount === 2)
        return rgba(getComputedStyle(shape).fill);
      one = one.closest('svg').parentElement;
    }
    for (; one; one = one.parentElement) {
      const colour = rgba(getComputedStyle(one).backgroundColor);
      if (colour[3] === 1) return colour;
    }
    return [255, 255, 255, 1];
  }
  const faint = [];
  const walk = document.createTreeWalker(document.querySelector('main'), NodeFilter.SHOW_TEXT);
  let count = 0;
  while (walk.nextNode()) {
    const one = walk.currentNode.parentElement;
    if (!walk.currentNode.data.trim() || !one.checkVisibility()) continue;
    if (['STYLE', 'SCRIPT', 'title', 'TITLE'].includes(one.tagName)) continue;
    count++;
    const style = getComputedStyle(one);
    const ink = light(rgba(one.tagName === 'text' ? style.fill : style.color));
    const [a, b] = [ink, light(behind(one))].sort((x, y) => y - x);
    const ratio = (a + 0.05) / (b + 0.05);
    if (ratio < 4.5) faint.push(ratio.toFixed(2) + ' ' + walk.currentNode.data.slice(0, 30));
  }
  return count ? faint.slice(0, 5) : ['no text'];
})()
"""

# The lines of each label's column, over all events.
TOLD = """
(() => {
  const told = {};
  for (const cell of document.querySelectorAll('.all .lines > .cell')) {
    const lines = cell.querySelector('pre').textContent;
    const label = cell.dataset.label;
    told[label] = (told[label] || '') + (lines ? lines + '\\n' : '');
  }
  return told;
})()
"""

# Texts that stand on each other.
OVERLAP = """
(() => {
  const boxes = [], walk = document.createTreeWalker(document.querySelector('main'), NodeFilter.SHOW_TEXT);
  while (walk.nextNode()) {
    const one = walk.currentNode.parentElement;
    if (!walk.currentNode.data.trim() || !one.checkVisibility()) continue;
    if (one.closest('.heads, title, style, script')) continue;
    const range = document.createRange();
    range.selectNodeContents(walk.currentNode);
    for (const box of range.getClientRects())
      if (box.width > 1) boxes.push({ box, one, words: walk.currentNode.data.slice(0, 20) });
  }
  boxes.sort((a, b) => a.box.top - b.box.top);
  const found = [];
  for (let i = 0; i < boxes.length; i++) {
    for (let j = i + 1; j < boxes.length && boxes[j].box.top < boxes[i].box.bottom; j++) {
      const [a, b] = [boxes[i].box, boxes[j].box];
      const wide = Math.min(a.right, b.right) - Math.max(a.left, b.left), high = Math.min(a.bottom, b.bottom) - b.top;
      if (wide > 2 && high > 5 && boxes[i].one !== boxes[j].one) found.push(boxes[i].words + ' on ' + boxes[j].words);
    }
  }
  return found.slice(0, 5);
})()
"""

# What is cut off: rows behind a bar, a value that is broken within a short word, letters that are too small.
CUT = """
(() => {
  const found = [];
  for (const one of document.querySelectorAll('.scroll'))
    if (one.checkVisibility() && one.scrollWidth > one.clientWidth + 3 && !one.matches('.drawing'))
      found.push(one.textContent.slice(0, 20) + ' is behind a bar');
  for (const one of document.querySelectorAll('.rows td:not(.long) bdi')) {
    if (!one.checkVisibility()) continue;
    const lines = new Set([...one.getClientRects()].map(box => box.top)).size;
    if (lines > one.textContent.split(/[^\\p{L}\\p{N}]+/u).length)
      found.push(one.textContent.slice(0, 20) + ' is broken');
  }
  for (const one of document.querySelectorAll('svg text'))
    if (one.checkVisibility() && one.getBoundingClientRect().height < 10)
      found.push(one.textContent + ' is ' + one.getBoundingClientRect().height.toFixed(1) + ' high');
  for (const one of document.querySelectorAll('th'))
    if (one.checkVisibility() && one.getClientRects().length && !one.textContent.includes(' ')) {
      const range = document.createRange();
      range.selectNodeContents(one);
      if (range.getClientRects().length > 1) found.push('the head ' + one.textContent + ' is broken');
    }
  return found.slice(0, 5);
})()
"""

# The lines of a drawing of labels that pass another label than their ends.
PASSED = """
(() => {
  const found = [];
  for (const svg of document.querySelectorAll('svg')) {
    const rects = [...svg.querySelectorAll('g > rect')].map(one => one.getBBox());
    for (const line of svg.querySelectorAll('polyline, line')) {
      const length = line.getTotalLength(), end = line.getPointAtLength(length), start = line.getPointAtLength(0);
      for (let at = 0; at <= length; at += 2) {
        const point = line.getPointAtLength(at);
        for (const box of rects) {
          const within = (at, low, size, by) => at > low - by && at < low + size + by;
          const has = ({ x, y }, by) => within(x, box.x, box.width, by) && within(y, box.y, box.height, by);
          if (has(point, 0) && !has(start, 1) && !has(end, 1)) found.push(at);
        }
      }
    }
  }
  return found.length;
})()
"""

# The cells that do not stand on the colour of their class: that of the head, or of the name, of the label.
COLOURS = """
(() => {
  const colour = one => getComputedStyle(one).backgroundColor, of = new Map(), found = [];
  for (const one of document.querySelectorAll('.all .label')) of.set(one.textContent, colour(one));
  for (const cell of document.querySelectorAll('.rows td')) {
    const label = cell.querySelector('small') ? cell.querySelector('small').textContent : cell.textContent;
    if (colour(cell) !== of.get(label)) found.push(cell.textContent);
  }
  return new Set(of.values()).size < of.size && of.size < 9 ? ['two labels have one colour'] : found.slice(0, 5);
})()
"""

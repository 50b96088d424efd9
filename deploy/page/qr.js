// A QR code of a text, as rows of modules (true is dark): ISO/IEC 18004, bytes, error correction M, versions 1 to 10, which hold 213 bytes.

/** Of each version: code words of a block for correction, and the data words of each block. */
const BLOCKS = [null, [10, [16]], [16, [28]], [26, [44]], [18, [32, 32]], [24, [43, 43]], [16, [27, 27, 27, 27]], [18, [31, 31, 31, 31]],
  [22, [38, 38, 39, 39]], [22, [36, 36, 36, 37, 37]], [26, [43, 43, 43, 43, 44]]];
/** Where the centres of the small squares stand, in both directions. */
const CENTRES = [null, [], [6, 18], [6, 22], [6, 26], [6, 30], [6, 34], [6, 22, 38], [6, 24, 42], [6, 26, 46], [6, 28, 50]];

const sum = numbers => numbers.reduce((one, other) => one + other, 0);

// ---- code words

/** The product in the field of 256 elements that is built on x^8 + x^4 + x^3 + x^2 + 1. */
function times(one, other) {
  let product = 0;
  for (let bit = 7; bit >= 0; bit--) product = (product << 1) ^ ((product >> 7) * 0x11d) ^ (((other >> bit) & 1) * one);
  return product;
}

/** The remainder of the data, as a polynomial, by that of Reed and Solomon with so many roots. */
function correctionOf(data, count) {
  const divisor = [...Array(count - 1).fill(0), 1];
  for (let step = 0, root = 1; step < count; step++, root = times(root, 2)) {
    for (let place = 0; place < count; place++) divisor[place] = times(divisor[place], root) ^ (place + 1 < count ? divisor[place + 1] : 0);
  }
  const rest = Array(count).fill(0);
  for (const word of data) {
    const factor = word ^ rest.shift();
    rest.push(0);
    divisor.forEach((each, place) => { rest[place] ^= times(each, factor); });
  }
  return rest;
}

/** The bytes with their head and padding, as many words as the version holds. */
function dataOf(bytes, version) {
  const words = sum(BLOCKS[version][1]), long = version > 9 ? 16 : 8;
  const bits = [4, bytes.length].map((number, place) => number.toString(2).padStart(place ? long : 4, '0')).join('') +
    bytes.map(byte => byte.toString(2).padStart(8, '0')).join('');
  const ended = bits + '0'.repeat(Math.min(4, 8 * words - bits.length)), whole = ended.padEnd(8 * Math.ceil(ended.length / 8), '0');
  const data = whole.match(/.{8}/g).map(word => parseInt(word, 2));
  for (let pad = 0xec; data.length < words; pad ^= 0xec ^ 0x11) data.push(pad);
  return data;
}

/** All words in the order in which they are drawn: a word of each block after the other, the data first. */
function wordsOf(data, version) {
  const [count, sizes] = BLOCKS[version];
  let from = 0;
  const blocks = sizes.map(size => data.slice(from, from += size)), corrections = blocks.map(block => correctionOf(block, count));
  const woven = lists => Array.from({ length: Math.max(...lists.map(list => list.length)) }, (_, place) => lists.map(list => list[place])).flat();
  return [...woven(blocks), ...woven(corrections)].filter(word => word !== undefined);
}

// ---- what is drawn in every code of a version: squares, lines, and the numbers of the mask and the version

function square(set, row, column, reach, isDark) {
  for (let down = -reach; down <= reach; down++) {
    for (let right = -reach; right <= reach; right++) set(row + down, column + right, isDark(Math.max(Math.abs(down), Math.abs(right))));
  }
}

/** Data bits followed by the remainder that checks them. */
function checked(data, length, divisor) {
  let rest = data;
  for (let step = 0; step < length; step++) rest = (rest << 1) ^ ((rest >> (length - 1)) * divisor);
  return (data << length) | (rest & ((1 << length) - 1));
}

function drawFixed(set, size, version, mask) {
  for (let place = 0; place < size; place++) for (const at of [[6, place], [place, 6]]) set(...at, place % 2 === 0);
  for (const [row, column] of [[3, 3], [3, size - 4], [size - 4, 3]]) square(set, row, column, 4, reach => reach !== 2 && reach !== 4);
  const centres = CENTRES[version], last = size - 7;
  for (const row of centres) for (const column of centres) {
    const isCorner = [row, column].every(each => each === 6 || each === last) && (row === 6 || column === 6);
    if (!isCorner) square(set, row, column, 2, reach => reach !== 1);
  }
  const format = checked(mask, 10, 0x537) ^ 0x5412, bit = place => ((format >> place) & 1) === 1;
  for (let place = 0; place < 15; place++) {
    set(place < 6 ? place : place < 8 ? place + 1 : size - 15 + place, 8, bit(place));
    set(8, place < 8 ? size - 1 - place : place < 9 ? 7 : 14 - place, bit(place));
  }
  set(size - 8, 8, true);
  const number = checked(version, 12, 0x1f25);
  for (let place = 0; version > 6 && place < 18; place++) {
    const far = size - 11 + place % 3, near = Math.floor(place / 3), isDark = ((number >> place) & 1) === 1;
    set(near, far, isDark);
    set(far, near, isDark);
  }
}

// ---- masks, and which of them is easiest to read

const MASKS = [(row, column) => (row + column) % 2, row => row % 2, (row, column) => column % 3, (row, column) => (row + column) % 3,
  (row, column) => (Math.floor(row / 2) + Math.floor(column / 3)) % 2, (row, column) => row * column % 2 + row * column % 3,
  (row, column) => (row * column % 2 + row * column % 3) % 2, (row, column) => ((row + column) % 2 + row * column % 3) % 2];

/** The bits of the words, two columns at a time from the right, up and down in turn, around what is drawn already. */
function drawWords(rows, isFixed, words, mask) {
  const size = rows.length;
  let place = 0;
  for (let right = size - 1; right > 0; right -= right === 8 ? 3 : 2) {
    for (let step = 0; step < size; step++) {
      for (const column of [right, right - 1]) {
        const row = ((right + 1) & 2) === 0 ? size - 1 - step : step;
        if (isFixed[row][column]) continue;
        const bit = place < 8 * words.length && ((words[place >> 3] >> (7 - place % 8)) & 1) === 1;
        place += 1;
        rows[row][column] = bit !== (MASKS[mask](row, column) === 0);
      }
    }
  }
}

/** How hard a code is to read: long runs, blocks of one colour, patterns like those of the corners, and too much of one colour. */
function penaltyOf(rows) {
  const turned = rows.map((_, place) => rows.map(row => row[place])), lines = [...rows, ...turned].map(row => row.map(Number).join(''));
  const runs = sum(lines.map(line => sum((line.match(/0{5,}|1{5,}/g) || []).map(run => run.length - 2))));
  const corners = sum(lines.map(line => (line.match(/(?=00001011101|10111010000)/g) || []).length));
  let blocks = 0;
  for (let row = 1; row < rows.length; row++) for (let column = 1; column < rows.length; column++) {
    const dark = [rows[row][column], rows[row - 1][column], rows[row][column - 1], rows[row - 1][column - 1]].filter(each => each).length;
    if (dark % 4 === 0) blocks += 1;
  }
  const part = rows.flat().filter(each => each).length / rows.length ** 2;
  return runs + 3 * blocks + 40 * corners + 10 * Math.floor(Math.abs(part - 0.5) * 20);
}

function drawn(version, words, mask) {
  const size = 17 + 4 * version, make = () => Array.from({ length: size }, () => Array(size).fill(false)), rows = make(), isFixed = make();
  const set = (row, column, isDark) => {
    if (row < 0 || column < 0 || row >= size || column >= size) return;
    rows[row][column] = isDark;
    isFixed[row][column] = true;
  };
  drawFixed(set, size, version, mask);
  drawWords(rows, isFixed, words, mask);
  return rows;
}

/** The rows of the code, or null for a text that is too long. */
export function qrOf(text) {
  const bytes = [...new TextEncoder().encode(text)];
  const version = BLOCKS.findIndex((block, place) => block && sum(block[1]) >= bytes.length + (place > 9 ? 3 : 2));
  if (version < 0) return null;
  const words = wordsOf(dataOf(bytes, version), version);
  const codes = MASKS.map((_, mask) => drawn(version, words, mask)), penalties = codes.map(penaltyOf);
  return codes[penalties.indexOf(Math.min(...penalties))];
}

/** The code as a drawing, dark on white with the white edge that a reader needs. */
export function qrDrawing(text, name) {
  const rows = qrOf(text);
  if (!rows) return null;
  const size = rows.length + 8, space = 'http://www.w3.org/2000/svg', drawing = document.createElementNS(space, 'svg'), path = document.createElementNS(space, 'path');
  const dark = rows.flatMap((row, y) => row.map((isDark, x) => isDark ? 'M' + (x + 4) + ' ' + (y + 4) + 'h1v1h-1z' : '')).join('');
  for (const [key, value] of Object.entries({ viewBox: '0 0 ' + size + ' ' + size, role: 'img', 'aria-label': name, 'shape-rendering': 'crispEdges' })) drawing.setAttribute(key, value);
  path.setAttribute('d', 'M0 0h' + size + 'v' + size + 'h-' + size + 'z');
  path.setAttribute('class', 'light');
  const code = document.createElementNS(space, 'path');
  code.setAttribute('d', dark);
  code.setAttribute('class', 'dark');
  drawing.append(path, code);
  return drawing;
}

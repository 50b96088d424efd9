// The text of a file, whichever encoding its program wrote: UTF-8 and UTF-16 with and without a mark at the beginning, or Windows' Latin letters.
const MARKS = [['utf-8', [0xef, 0xbb, 0xbf]], ['utf-16le', [0xff, 0xfe]], ['utf-16be', [0xfe, 0xff]]];

/** A text without letters of other scripts has a zero byte in each pair of UTF-16. */
function pairsOf(bytes) {
  const zeros = [0, 0], some = bytes.subarray(0, 2000);
  some.forEach((byte, place) => { if (byte === 0) zeros[place % 2] += 1; });
  if (zeros[1] > some.length / 4) return 'utf-16le';
  return zeros[0] > some.length / 4 ? 'utf-16be' : '';
}

export function textOf(bytes) {
  const marked = MARKS.find(([, mark]) => mark.every((byte, place) => bytes[place] === byte));
  const encoding = marked ? marked[0] : pairsOf(bytes);
  if (encoding) return new TextDecoder(encoding).decode(bytes);
  try {
    return new TextDecoder('utf-8', { fatal: true }).decode(bytes);
  } catch {
    return new TextDecoder('windows-1252').decode(bytes);
  }
}

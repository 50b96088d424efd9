// News of what the merge did to this office's requests: which lost their room, moved, found one after all, or were cancelled by another
// office. The office's service writes news.json; a mark under /told/ says, to all desks of the office, that people were told.
import { Fault, askFile, putMark } from './office.js';
import { mineOf } from './mine.js';
import { listText, say } from './words.js';

const KINDS = ['lost', 'moved', 'found', 'cancelled'];
let news = { made: null, items: [], server: 0 };
let told = new Set();
/** What the office's service said of itself last: status.json. */
export let status = null;

/** Asks for the state, for the marks, and for the news where they are others than those that were read. */
export async function askNews() {
  status = await askFile('/status.json');
  if (!status) return;
  const marks = await askFile('/told/');
  if (Array.isArray(marks)) told = new Set(marks.map(mark => mark.name));
  if (status.news === news.made) return;
  const read = await askFile('/news.json');
  if (read && Array.isArray(read.items)) news = read;
}

/** What of the news people have to be told. What this browser saw booked and the office never did has lost its room, too. */
function kindOf(item) {
  if (item.kind === 'none') return mineOf(item.room, item.id)?.first?.state === 'booked' ? 'lost' : '';
  const isOwn = item.kind === 'cancelled' && item.by && Number(item.by.split('-')[0]) === news.server;
  return KINDS.includes(item.kind) && !isOwn ? item.kind : '';
}

/** The requests that people have to be told of, each with its latest change, those before it, and the keys to be marked; by day and hour. */
export function untold() {
  const entries = new Map();
  for (const item of news.items) {
    const kind = told.has(item.key) ? '' : kindOf(item), name = item.room + ' ' + item.id, known = entries.get(name);
    if (kind) entries.set(name, { ...item, kind, keys: [...known?.keys || [], item.key], before: [...known?.before || [], ...known ? [known] : []] });
    else if (known) known.mark = item.mark;
  }
  return [...entries.values()].sort((one, other) => orderOf(one) < orderOf(other) ? -1 : 1);
}

/** Where it stood, stands, or wanted to stand. */
export const slotOf = item => item.from || item.to || item.wish || mineOf(item.room, item.id)?.wish || { day: item.found.slice(0, 10), start: '00:00' };

const orderOf = item => slotOf(item).day + ' ' + slotOf(item).start + ' ' + item.room;

/** Marks these as told. Gives words where that couldn't be done. */
export async function tell(entries) {
  try {
    for (const key of entries.flatMap(entry => entry.keys)) {
      await putMark('/told/' + key);
      told.add(key);
    }
    return '';
  } catch (fault) {
    if (!(fault instanceof Fault)) throw fault;
    return say('news.notMarked', { cause: fault.message });
  }
}

/** How many of a kind, where they come first, and behind others; what was lost comes before all others. */
const COUNTS = {
  lost: ['news.lost'], moved: ['news.moved', 'news.movedToo'], found: ['news.found', 'news.foundToo'], cancelled: ['news.cancelled', 'news.cancelledToo'],
};

/** In one line, for the bar. */
export function newsLine(entries) {
  const countOf = kind => entries.filter(entry => entry.kind === kind).length;
  return listText(KINDS.filter(countOf).map((kind, place) => say(COUNTS[kind][place ? 1 : 0], { count: countOf(kind) })));
}

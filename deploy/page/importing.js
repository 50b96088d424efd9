// A file of bookings, as a CSV or a calendar, becomes a plan: each line or event with its room and a key by which a second run knows it.
import { office } from './office.js';
import { wishesOfCsv } from './readcsv.js';
import { textOf } from './encodings.js';
import { askedKeys, contentOf } from './groups.js';
import { wishesOfIcal } from './readical.js';
import { itemOf } from './plan.js';
import { roomWritten } from './written.js';
import { say } from './words.js';

export const MOST_BYTES = 8 * 1024 * 1024, MOST_LINES = 10000;

/** The items of a file's bytes, none of which is left out: what can't be asked for says why. `elsewhere` is the room of those that name none of ours. */
export function itemsOfFile(bytes, elsewhere) {
  if (bytes.length > MOST_BYTES) return { items: [], trouble: say('importing.big', { size: MOST_BYTES / 1024 / 1024 }) };
  const text = textOf(bytes), isCalendar = /^\s*BEGIN:VCALENDAR/i.test(text);
  const { wishes, trouble } = isCalendar ? wishesOfIcal(text) : wishesOfCsv(text);
  if (trouble) return { items: [], trouble };
  if (wishes.length > MOST_LINES) return { items: [], trouble: say('importing.many', { most: MOST_LINES }) };
  return { items: itemsOf(wishes, elsewhere), trouble: wishes.length ? '' : say('importing.none') };
}

function itemsOf(wishes, elsewhere) {
  const asked = askedKeys(), lines = new Map();
  return wishes.map(({ place, note, ...wish }) => {
    const room = (place && roomWritten(place, office.rooms)) || elsewhere;
    const trouble = wish.trouble || (room ? '' : place ? say('importing.notHere', { place }) : say('importing.noRoom'));
    const item = itemOf({ ...wish, room, trouble });
    if (note) item.note = note;
    if (item.state === 'bad') return item;
    const key = item.key || contentOf(item), before = asked.get(key);
    if (lines.has(key)) return Object.assign(item, { state: 'bad', isWanted: false, words: say('importing.same', { line: lines.get(key) }) });
    lines.set(key, item.line);
    return before ? Object.assign(item, { state: 'there', isWanted: false, id: before.id, words: say('importing.before', { id: before.id }) }) : item;
  });
}

// A plan: many requests that are to be sent one by one, and what is known of each before. An item has a room, a day, a start, a length, a
// title, and a key by which it is known again; its state is one of those of STATES.
import { clashesOf, hoursText, isDay, isPlain, minuteOf, plainOf } from './texts.js';
import { Fault, askSheet, labelOf, now } from './office.js';
import { listText, say } from './words.js';

const LONGEST = 60;

/** In the order in which they are shown: a head, the class of its colour, whether such an item may be asked for, and the sentence of how many there are. */
export const STATES = {
  bad: [say('plan.bad'), 'none', false, 'plan.countBad'],
  perhaps: [say('states.perhaps'), 'none', false, 'plan.countPerhaps'],
  none: [say('states.noRoom'), 'none', false, 'plan.countNone'],
  refused: [say('plan.refused'), 'none', false, 'plan.countRefused'],
  clash: [say('plan.clash'), 'none', true, 'plan.countClash'],
  past: [say('plan.past'), 'free', true, 'plan.countPast'],
  unread: [say('plan.unread'), 'free', true, 'plan.countUnread'],
  free: [say('plan.free'), 'free', true, 'plan.countFree'],
  there: [say('plan.there'), 'sure', false, 'plan.countThere'],
  booked: [say('states.notFinal'), 'open', false, 'plan.countBooked'],
};

export const mayAsk = item => STATES[item.state][2];
export const countOf = (state, count) => say(STATES[state][3], { count });
export const spanOf = item => ({ from: minuteOf(item.start), to: minuteOf(item.start) + item.length });
export const hoursOfItem = item => hoursText(spanOf(item).from, spanOf(item).to);

/** What keeps an item from being asked for, whatever the office says; its title becomes one in plain letters. */
export function faultOf(item) {
  const title = plainOf(item.title);
  if (!isDay(item.day)) return say('plan.noDay', { day: item.day });
  if (!title) return item.title.trim() && !isPlain(item.title) ? say('plan.noPlainLetter') : say('plan.noTitle');
  if (title.length > LONGEST) return say('plan.longTitle', { length: title.length, most: LONGEST });
  item.title = title;
  return '';
}

/** An item of a plan: bad with its reason, or not looked at yet. */
export function itemOf(wish) {
  const item = { ...wish, id: '', words: wish.trouble || '' };
  item.words = item.words || faultOf(item);
  item.state = item.words ? 'bad' : 'unread';
  if (!item.words && item.day < now().day) item.state = 'past';
  item.isWanted = item.state === 'unread';
  return item;
}

/** What a sheet says of an item, and the items before it that it overlaps. */
function judge(item, rows, before) {
  const { from, to } = spanOf(item), clock = now();
  const own = rows.find(row => row.start === from && row.stop === to && row.title === item.title);
  const clashes = [...clashesOf(rows, from, to), ...clashesOf(before, from, to)];
  if (own) return { state: 'there', id: own.id, words: say('plan.request', { id: own.id }) };
  if (clashes.length) return { state: 'clash', words: listText(clashes.map(row => say('plan.isTaken', { hours: hoursText(row.start, row.stop), title: row.title }))) };
  if (item.day < clock.day || (item.day === clock.day && to <= clock.minute)) return { state: 'past', words: '' };
  return { state: 'free', words: '' };
}

/** Reads the sheets of a plan, a few words after each, and says of each item what stands in its way. False where it was stopped. */
export async function look(items, progress, isStopped) {
  const sheets = new Map();
  for (const item of items.filter(mayAsk)) {
    if (item.state === 'past' && !item.isWanted) continue;
    const name = item.room + ' ' + item.day;
    sheets.set(name, [...sheets.get(name) || [], item]);
  }
  let done = 0;
  for (const own of sheets.values()) {
    if (isStopped()) return false;
    await lookAt(own);
    progress(done += 1, sheets.size);
  }
  return true;
}

async function lookAt(own) {
  const [{ room, day }] = own, before = [];
  try {
    const { rows } = await askSheet(room, day);
    for (const item of own) {
      Object.assign(item, rows ? judge(item, rows, before) : { state: 'bad', words: say('plan.unknownRoom', { room: labelOf(room) }) });
      item.isWanted = item.state === 'free' || (item.state === 'past' && item.isWanted);
      const { from, to } = spanOf(item);
      before.push({ start: from, stop: to, title: say('plan.ofList', { title: item.title }) });
    }
  } catch (fault) {
    if (!(fault instanceof Fault)) throw fault;
    for (const item of own) Object.assign(item, { state: 'unread', words: fault.message, isWanted: false });
  }
}

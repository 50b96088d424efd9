// The list of a plan: what is free, what is taken and by what, what came of each request; by state, the long parts folded.
import { el, buttonOf, minuteOf, nearestOf, hoursText, renew, byId, timeOf, dateText, dayText } from './texts.js';
import { Fault, askSheet, labelOf, office } from './office.js';
import { hoursOfItem, mayAsk, STATES } from './plan.js';
import { chipOf } from './states.js';
import { say } from './words.js';

export const FEW = 5;
const MOST_OPEN = 40, MOST_SHOWN = 100, MOST_OFFERS = 3;
const folded = new Map();   // states that were opened or shut by hand
const shown = new Map();    // how many of a state are shown
const offers = new Map();   // by item: what is free on its day

export function forgetPlan() {
  for (const each of [folded, shown, offers]) each.clear();
}

/** Shows the items; `act` has what is done when a box is ticked and an offer is taken. */
export function showItems(items, act, isGoing) {
  const parts = Object.keys(STATES).map(state => [state, items.filter(item => item.state === state)]).filter(([, own]) => own.length);
  renew(byId('plan-items'), ...parts.map(([state, own]) => partOf(state, own, act, isGoing)));
}

function partOf(state, own, act, isGoing) {
  const isOpen = folded.get(state) ?? own.length <= MOST_OPEN, count = shown.get(state) || MOST_SHOWN, [words, kind] = STATES[state];
  const summary = el('summary', {}, chipOf(words, kind), ' ' + own.length);
  summary.dataset.key = 'part ' + state;
  summary.addEventListener('click', event => { event.preventDefault(); folded.set(state, !isOpen); act.show(); });
  const details = el('details', { open: isOpen, 'aria-label': words }, summary);
  details.dataset.state = state;
  if (isOpen) details.append(el('ul', {}, ...own.slice(0, count).map(item => rowOf(item, act, isGoing))));
  if (isOpen && own.length > count) {
    details.append(buttonOf(say('planlist.more', { of: own.length }), () => { shown.set(state, count + MOST_SHOWN); act.show(); }));
  }
  return details;
}

const whenOf = item => ({ day: dayText(item.day, 'short'), hours: hoursOfItem(item) });

/** What is in the way of an item or came of it, and what is to be known of it; the office's own words of a refusal are a sentence already. */
function reasonOf({ state, words, note }) {
  if (words && note && state !== 'refused') return say('planlist.reasons', { words, note });
  return [words && state !== 'refused' ? say('planlist.reason', { words }) : words, note && say('planlist.reason', { words: note })].filter(each => each).join(' ');
}

function rowOf(item, act, isGoing) {
  const what = item.state === 'bad' ? item.title : say('planlist.item', { ...whenOf(item), room: labelOf(item.room), title: item.title });
  const words = item.line ? say('planlist.line', { line: item.line, what }) : what;
  const said = reasonOf(item), reason = said ? el('span', { className: 'hint' }, ' ' + said) : null;
  if (!mayAsk(item) || isGoing) return el('li', {}, words, reason, offersOf(item, act, isGoing));
  const box = el('input', { type: 'checkbox', defaultChecked: item.isWanted, checked: item.isWanted });
  box.dataset.key = 'tick ' + item.room + item.day + item.start;
  box.addEventListener('change', () => { item.isWanted = box.checked; act.show(); });
  return el('li', {}, el('label', { className: 'tick' }, box, words), reason, offersOf(item, act, isGoing));
}

/** For one that is taken or found no room: what is free near it, once that was asked for. */
function offersOf(item, act, isGoing) {
  if (isGoing || !['clash', 'none'].includes(item.state)) return null;
  const free = offers.get(item);
  if (!free) {
    const button = buttonOf(say('planlist.whatIsFree'), async () => { await offerFor([item]); act.show(); }, { 'aria-label': say('planlist.whatIsFreeAt', whenOf(item)) });
    button.dataset.key = 'free ' + item.room + item.day + item.start;
    return button;
  }
  if (!free.length) return el('span', { className: 'hint' }, ' ' + say('planlist.nothing'));
  return el('span', { className: 'buttons' }, ...free.map(slot => {
    const words = say('planlist.slot', { room: labelOf(slot.room), hours: hoursText(minuteOf(slot.start), minuteOf(slot.start) + item.length) });
    const label = say(item.state === 'none' ? 'planlist.askFor' : 'planlist.take', { date: dateText(item.day), slot: words });
    const button = buttonOf(words, () => { offers.delete(item); act.take(item, slot); }, { 'aria-label': label });
    button.dataset.key = 'offer ' + item.day + words;
    return button;
  }));
}

/** Looks what is free near these. */
export async function offerFor(items) {
  for (const item of items) offers.set(item, await freeNear(item));
}

/** Free hours of the item's day: some in its room, and one in each other. */
export async function freeNear({ room, day, start, length }) {
  const slots = [];
  for (const { name } of [...office.rooms].sort((one, other) => (other.name === room) - (one.name === room))) {
    const { rows } = await askSheet(name, day).catch(fault => { if (fault instanceof Fault) return { rows: null }; throw fault; });
    const starts = rows ? nearestOf(rows, length, minuteOf(start), office.from, office.to) : [];
    slots.push(...starts.slice(0, name === room ? MOST_OFFERS : 1).map(at => ({ room: name, day, start: timeOf(at) })));
  }
  return slots;
}

// What is free instead, after a request found no room; and the request that it stands in for, which is withdrawn once another is booked.
import { byId, el, buttonOf, hoursText, minuteOf, nearestOf, timeOf, dayText } from './texts.js';
import { Fault, askSheet, labelOf, office } from './office.js';
import { sendCancel } from './cancel.js';
import { sure } from './question.js';
import { say } from './words.js';

const MOST_OFFERS = 4;

/** The requests without a room in whose place another one is asked for, and whether that was taken from an offer of the page. */
let firsts = [], isOffer = false;

export function standsFor(entry) {
  firsts.push(entry);
  isOffer = false;
}

export function standsForNone() { firsts = []; }

export function offerTaken() { isOffer = firsts.length > 0; }

/** Shows what is free near a wish on its day, in its room and in the others. `take` is called with what was pressed. */
export async function showOffers(place, wish, take) {
  const paragraphs = [];
  place.replaceChildren();
  for (const { name } of [...office.rooms].sort((one, other) => (other.name === wish.room) - (one.name === wish.room))) {
    const { rows } = await askSheet(name, wish.day).catch(unlessFault);
    const most = name === wish.room ? MOST_OFFERS : 1;
    const starts = rows ? nearestOf(rows, wish.length, minuteOf(wish.start), office.from, office.to).slice(0, most) : [];
    if (starts.length) paragraphs.push(el('p', {}, el('b', {}, say('offers.freeIn', { room: labelOf(name) })), ' ', ...starts.map(start => offerButton(name, start, wish, take))));
  }
  if (!paragraphs.length) paragraphs.push(el('p', {}, say('offers.none', { day: dayText(wish.day) })));
  place.replaceChildren(...paragraphs);
}

/** A sheet that can't be had offers nothing. */
function unlessFault(fault) {
  if (!(fault instanceof Fault)) throw fault;
  return { rows: null };
}

function offerButton(room, start, wish, take) {
  const words = { 'aria-label': say('all.askFor', { what: labelOf(room) + ', ' + timeOf(start) }) };
  return buttonOf(hoursText(start, start + wish.length), () => take(room, wish.day, start), words);
}

/** Another request is booked: those that it stands for are withdrawn; unless it is an offer of the page's, a question comes before. */
export async function withdrawFirsts(title) {
  const waiting = firsts.filter(entry => !entry.withdrawn && (isOffer || entry.title === title));
  const isSure = isOffer && waiting.every(entry => entry.title === title);
  standsForNone();
  for (const entry of waiting) {
    const words = say('offers.reallyWithdraw', { id: entry.now.id, title: entry.title, room: labelOf(entry.room) });
    if (isSure || await sure(words, say('offers.withdraw'), say('all.leaveIt'))) showWithdrawn(entry, await sendCancel(entry));
  }
}

function showWithdrawn({ now }, done) {
  const words = done || say('offers.notWithdrawn', { id: now.id });
  byId('offers').append(el('p', { className: done ? 'good' : 'bad' }, words));
}

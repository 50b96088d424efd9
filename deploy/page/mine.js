// My requests: those of this browser, kept in it and nowhere else, with what became of them, day by day.
import { byId, el, buttonOf, renew, dateText, dayText } from './texts.js';
import { labelOf, now, page } from './office.js';
import { askBox, showBox } from './box.js';
import { cancelButton, troubleOf } from './cancel.js';
import { follow } from './follow.js';
import { openMove } from './move.js';
import { sure } from './question.js';
import { chipOf, stateOf } from './states.js';
import { capital, pieces, say } from './words.js';

const FEW = 4;
let mine = [];
let underWay = null;
const folded = new Map();   // days that were opened or shut by hand

const slotText = slot => say('all.slot', { date: dateText(slot.day), start: slot.start });
const sameSlot = (one, other) => one.day === other.day && one.start === other.start;
const isBooked = entry => Boolean(entry.now) && !entry.gone && entry.now.state === 'booked';
const dayOf = entry => isBooked(entry) ? entry.now.day : entry.wish.day;

// ---- the list

export function readMine() {
  try { mine = JSON.parse(localStorage.getItem('rooms.mine')) || []; } catch { mine = []; }
  showMine();
}

/** Another tab changed the list: its entries, with those that this page holds already and the one under way. */
export function takeMine(event) {
  if (event.key !== 'rooms.mine') return;
  const held = mine;
  readMine();
  mine = mine.map(entry => held.find(each => each.sent === entry.sent) || entry);
  if (underWay && !mine.includes(underWay)) mine.unshift(underWay);
  showMine();
}

export function keepMine() {
  try { localStorage.setItem('rooms.mine', JSON.stringify(mine)); } catch { /* then they last as long as this page */ }
  showMine();
}

/** From now on it is perhaps booked, until a reply comes. */
export function addMine(entry) {
  mine.unshift(entry);
  underWay = entry;
  keepMine();
}

export function replied() {
  underWay = null;
  showMine();
}

export function dropMine(...entries) {
  mine = mine.filter(each => !entries.includes(each));
  keepMine();
}

/** A request took the place of another one, which leaves the list. */
export function adoptMine(old, { room, title, day, start, length }, outcome) {
  const isIt = (entry, where, id) => entry.room === where && entry.now && entry.now.id === id;
  mine = mine.filter(each => !isIt(each, old.room, old.id) && !isIt(each, room, outcome.id));
  mine.unshift({ room, title, wish: { day, start }, length, sent: new Date().toISOString() + Math.random(), first: outcome, now: { ...outcome } });
  keepMine();
}

/** The entry of this browser's own for a request, if it has one. */
export const mineOf = (room, id) => mine.find(entry => entry.room === room && entry.now && entry.now.id === id) || null;

export async function askMine(begun) {
  await follow(mine, begun);
  await askBox();
  keepMine();
}

// ---- an entry

function movedText(entry) {
  const first = entry.first, last = entry.now;
  if (!first || !last) return null;
  if (first.state === 'booked' && last.state === 'logged') return say('mine.lost', { slot: slotText(first) });
  if (last.state !== 'booked' || (first.state === 'booked' && sameSlot(first, last))) return null;
  return first.state === 'booked' ? say('all.moved', { from: slotText(first), to: slotText(last) }) : say('mine.found');
}

function stateOfMine(entry) {
  if (entry === underWay) return [say('mine.onItsWay'), 'open', ''];
  if (!entry.now) return [say('states.perhaps'), 'none', say('mine.noReply')];
  const state = stateOf(entry.gone ? null : entry.now, entry.withdrawn), { day, start, stop } = entry.now;
  if (isBooked(entry)) state[2] = say('mine.has', { date: dateText(day), hours: start + '–' + stop }) + ' ' + state[2];
  return state;
}

/** A button of the list, which is found again by its key when the list is made anew. */
function keyedButton(entry, words, name, act) {
  const button = buttonOf(words, act, { 'aria-label': say('all.labelled', { words, title: entry.title }) });
  button.dataset.key = name + ' ' + entry.sent;
  return button;
}

/** What may be cancelled of it: its booking, or, while it may still get a room, the request. */
function undoOf(entry) {
  const isWaiting = entry.now && !entry.gone && entry.now.state === 'logged' && entry.now.mark === 'T' && !entry.withdrawn;
  if (!isBooked(entry) && !isWaiting) return null;
  return cancelButton(entry, say(isWaiting ? 'all.withdraw' : 'mine.cancel'), (words, act) => keyedButton(entry, words, 'cancel', act));
}

/** Its booking, as something that can be moved. */
function moveOf(entry) {
  if (!isBooked(entry)) return null;
  const { id, day, start } = entry.now;
  return keyedButton(entry, say('all.change'), 'move', () => openMove({ room: entry.room, id, title: entry.title, day, start, length: entry.length }));
}

function itemOf(entry) {
  const [word, kind, words] = stateOfMine(entry), moved = movedText(entry), outcome = entry.now, trouble = outcome && troubleOf(entry);
  const asked = { room: labelOf(entry.room), slot: slotText(entry.wish), id: outcome?.id };
  return el('li', {}, chipOf(word, kind), ' ', el('b', {}, entry.title), ' ',
    el('span', {}, say(outcome ? 'mine.askedAs' : 'mine.asked', asked) + ' ' + words),
    moved ? el('span', { className: 'moved' }, moved) : null, trouble ? el('span', { className: 'error' }, trouble) : null,
    el('span', { className: 'buttons' },
      keyedButton(entry, say('all.showDay'), 'show', () => page.goTo({ day: dayOf(entry), room: entry.room })), undoOf(entry), moveOf(entry),
      keyedButton(entry, say('mine.takeOff'), 'off', () => takeOff(entry))));
}

async function takeOff(entry) {
  const isUnsure = isBooked(entry) ? 'mine.staysBooked' : entry.now ? '' : 'mine.notKnownYet';
  if (isUnsure && !await sure(say(isUnsure), say('mine.takeOff'), say('all.leaveIt'))) return;
  dropMine(entry);
}

// ---- the days

/** The entries of a day, folded if there are many and it isn't shown: the latest first. */
function dayItem(day, entries, isOpen) {
  const lost = entries.filter(entry => entry.now && !isBooked(entry) && entry.now.state !== 'cancelled' && !entry.withdrawn).length;
  const requests = el('span', { className: 'count' }, say('all.requests', { count: entries.length }));
  const without = el('span', { className: 'bad' }, say('mine.withoutRoom', { count: lost }));
  const summary = el('summary', {}, ...pieces(lost ? 'mine.dayLost' : 'mine.day', { day: capital(dayText(day, 'short')), requests, without }));
  const details = el('details', { open: folded.get(day) ?? isOpen, 'aria-label': dateText(day) }, summary, el('ul', {}, ...entries.map(itemOf)));
  summary.addEventListener('click', () => folded.set(day, !details.open));
  summary.dataset.key = 'day ' + day;
  return details;
}

function daysOf(entries) {
  const days = new Map();
  for (const entry of entries) days.set(dayOf(entry), [...days.get(dayOf(entry)) || [], entry]);
  return [...days].sort(([one], [other]) => one < other ? -1 : 1);
}

/** Days that are past: they go by one press. */
function pastItems(past) {
  if (!past.length) return [];
  const all = past.flatMap(([, entries]) => entries);
  const button = buttonOf(say('mine.takeOffPast', { count: all.length }), () => dropMine(...all), {});
  button.dataset.key = 'past';
  return [el('p', { className: 'buttons' }, button), ...past.map(([day, entries]) => dayItem(day, entries, false))];
}

export function showMine() {
  const held = document.activeElement && document.activeElement.dataset.key, list = byId('mine'), today = now().day;
  const days = daysOf(mine), isFew = mine.length <= FEW, newest = mine.length ? dayOf(mine[0]) : '';
  const coming = days.filter(([day]) => day >= today), past = days.filter(([day]) => day < today);
  renew(list, ...(mine.length ? [] : [el('p', {}, say('mine.none'))]),
    ...coming.map(([day, entries]) => dayItem(day, entries, isFew || day === newest)), ...pastItems(past));
  const button = [...list.querySelectorAll('[data-key]')].find(each => each.dataset.key === held && !each.disabled);
  if (held && document.activeElement === document.body) (button || list).focus();
  showBox();
}

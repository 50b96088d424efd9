// The wish and its alternatives: how they are chosen, and what the form shows of them.
import { byId, el, buttonOf, clashesOf, hoursText, isDay, isPlain, MIDNIGHT, minuteOf, plainOf, put, renew, timeOf, dateText, dayText } from './texts.js';
import { labelOf, now, page, sheetOf } from './office.js';
import { calm } from './fields.js';
import { offerTaken, showOffers, standsFor, standsForNone } from './offers.js';
import { sure } from './question.js';
import { report, reportNoMore } from './states.js';
import { capital, say } from './words.js';

export const LONGEST = 60;
let alternatives = [];

export const sameSlot = (one, other) => one.day === other.day && one.start === other.start;
export const slotText = slot => say('all.slot', { date: dateText(slot.day), start: slot.start });
const wish = () => ({ day: byId('wish-day').value, start: byId('wish-start').value });
export const isWished = () => wish().day !== '' && wish().start !== '';
export const lengthOf = () => /^[0-9]{1,9}$/.test(byId('length').value.trim()) ? Number(byId('length').value) : 0;

/** The room, the wish, and its alternatives where there are any, as they are sent. */
export function slots() {
  const asked = { room: byId('room').value, ...wish() };
  return alternatives.length ? { ...asked, alternatives } : asked;
}

/** The slots that are asked for, the wish first, which is number 0, with their hours as far as they are filled in. */
export function choices() {
  const length = lengthOf() || 15, all = isWished() ? [{ ...wish(), number: 0 }] : [];
  all.push(...alternatives.map((slot, place) => ({ ...slot, number: place + 1 })));
  return all.map(slot => {
    const start = minuteOf(slot.start);
    return { ...slot, room: byId('room').value, from: start, to: Math.min(start + length, MIDNIGHT) };
  });
}

function setWish(slot) {
  byId('wish-day').value = slot.day;
  byId('wish-start').value = slot.start;
}

/** A free slot of the grid was pressed: it becomes the wish or an alternative, or is taken back. */
export async function chooseSlot(room, day, start) {
  const slot = { day, start: timeOf(start) };
  const place = alternatives.findIndex(each => sameSlot(each, slot));
  if (!await leavesRoom(room, slot)) return;
  reportNoMore();
  takeRoom(room);
  if (!isWished()) setWish(slot);
  else if (sameSlot(wish(), slot)) setWish({ day: '', start: '' });
  else if (place >= 0) alternatives.splice(place, 1);
  else alternatives.push(slot);
  page.show();
}

/** What was offered is pressed: it becomes the wish, in place of the one before. */
export async function takeOffer(room, day, start) {
  const slot = { day, start: timeOf(start) };
  if (!byId('request').classList.contains('refused') && !await leavesRoom(room, slot)) return false;
  takeRoom(room);
  alternatives = alternatives.filter(each => !sameSlot(each, slot));
  setWish(slot);
  offerTaken();
  calm();
  report('');
  page.show();
  byId('title').focus();
  return true;
}

/** A request lost its room: the form asks for it anew, with its title and length, and what is free on that day is offered. */
export async function askAgain(booking, slot, isWaiting) {
  const { room, title } = booking, day = slot.day < now().day ? now().day : slot.day, isFilled = isWished() || byId('title').value.trim() !== '';
  if (isFilled && !await sure(say('wish.reallyAgain', { title }), say('all.askAgain'), say('all.leaveIt'))) return;
  standsForNone();
  startOver();
  report('');
  for (const [id, value] of Object.entries({ room, title, length: slot.length, 'wish-day': day })) byId(id).value = value;
  if (isWaiting) standsFor(booking);
  page.goTo({ day, room, view: 'day' });
  byId('request').scrollIntoView();
  byId('title').focus({ preventScroll: true });
  await showOffers(byId('offers'), { room, day, start: slot.start, length: slot.length }, takeOffer);
}

/** A wish is of one room. Where another one is pressed, it is asked whether the wish and its alternatives may go. */
async function leavesRoom(room, slot) {
  const before = byId('room').value, count = alternatives.length;
  if (before === room || (!isWished() && !count)) return true;
  const held = isWished() ? say('wish.held', { room: labelOf(before), slot: slotText(wish()), count }) : say('wish.alternativesOf', { room: labelOf(before) });
  return sure(held + ' ' + say('wish.oneRoom', { room: labelOf(room), slot: slotText(slot) }), say('wish.changeRoom'), say('all.leaveIt'));
}

function takeRoom(room) {
  if (byId('room').value === room) return;
  byId('room').value = room;
  alternatives = [];
  setWish({ day: '', start: '' });
}

export function startOver() {
  alternatives = [];
  setWish({ day: '', start: '' });
  byId('title').value = byId('mail').value = '';
  calm();
  page.show();
}

// ---- what is shown of it

export function showForm() {
  renew(byId('choices'), ...alternatives.map((slot, place) => el('li', {}, say('all.dayTime', { day: dayText(slot.day, 'short'), time: slot.start }),
    buttonOf(say('wish.takeBack'), () => { alternatives.splice(place, 1); page.show(); byId('choices').focus(); },
      { 'aria-label': say('wish.takeBackSlot', { slot: slotText(slot) }) }))));
  const [first] = choices();
  const hours = isWished() ? hoursText(first.from, first.to) : '';
  put({ 'wish-words': hours && isDay(first.day) ? say('wish.when', { day: capital(dayText(first.day)), hours }) : '',
    clash: hours && clashWords(first), 'go-on': hours && say('wish.goOn', { room: labelOf(first.room), hours }) });
  byId('go-on').hidden = !hours;
  countTitle();
}

/** How many letters the title has, in the letters that can be kept. */
function countTitle() {
  const title = byId('title').value.trim(), count = (isPlain(title) ? title : plainOf(title)).length;
  put({ 'title-count': count ? say('wish.letters', { number: count, most: LONGEST }) : '' });
  byId('title-count').className = count > LONGEST ? 'error' : 'hint';
}

/** A hand is at the form: what went well before is no longer reported beside it. */
export function typed() {
  reportNoMore();
  countTitle();
}

/** What stands in the way of a choice, by the sheet that was read last. */
export function clashWords(choice) {
  const sheet = sheetOf(choice.room, choice.day);
  const rows = clashesOf(sheet && sheet.rows || [], choice.from, choice.to);
  return rows.map(row => say('wish.clash', { start: timeOf(row.start), stop: timeOf(row.stop), title: row.title })).join(' ');
}

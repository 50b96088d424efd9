// The bar that says how many meetings lost their room or moved, and the list that it leads to, day by day.
import { byId, el, buttonOf, minuteOf, put, renew, dateText, dayText } from './texts.js';
import { labelOf, office, page } from './office.js';
import { cancelButton, troubleOf } from './cancel.js';
import { askAgain } from './wish.js';
import { newsLine, slotOf, tell, untold } from './news.js';
import { sure } from './question.js';
import { chipOf } from './states.js';
import { capital, say } from './words.js';

const MOST_OPEN = 10, MOST_OF_DAY = 40;
const folded = new Map();     // days that were opened or shut by hand
const whole = new Set();      // days of which all entries are shown
const troubles = new Map();   // by key
const bookings = new Map();   // what is known of a request here: whether it was withdrawn
let isOpen = false;

const HEADS = {
  lost: [say('newslist.lost'), 'none'], moved: [say('newslist.moved'), 'open'], found: [say('newslist.found'), 'sure'], cancelled: [say('states.cancelled'), 'cancelled'],
};
const slotText = ({ day, start, stop }) => say('all.dayTime', { day: dayText(day, 'short'), time: start + (stop ? '–' + stop : '') });

/** A change in words. */
function changeText({ kind, from, to, by, wish }) {
  if (kind === 'moved') return say('all.moved', { from: slotText(from), to: slotText(to) });
  if (kind === 'found') return say('newslist.hasRoom', { slot: slotText(to) });
  if (kind === 'cancelled') return from ? say('newslist.hadCancelled', { slot: slotText(from), id: by }) : say('newslist.wasCancelled', { id: by });
  return from ? say('newslist.hadLost', { slot: slotText(from) }) : wish ? say('newslist.wanted', { slot: slotText(wish) }) : say('newslist.noRoom');
}

/** All its changes, one after the other, and what may become of it. */
function storyOf(entry, isWithdrawn) {
  const changes = [...entry.before, entry].map(changeText).reduce((before, after) => say('newslist.then', { before, after }));
  if (entry.kind === 'lost' && isWithdrawn) return changes + ' ' + say('newslist.withdrawn');
  return entry.mark === 'C' ? changes : changes + ' ' + say(entry.kind === 'lost' ? 'newslist.mayGet' : 'newslist.mayChange');
}

/** The request as something that can be withdrawn, and, asked again, stands for another one. */
function bookingOf({ room, id, title, mark }) {
  const name = room + ' ' + id;
  if (!bookings.has(name)) bookings.set(name, { room, title, now: { id, state: 'logged', mark }, withdrawn: '' });
  return Object.assign(bookings.get(name), { title });
}

const lengthOf = slot => slot.stop ? minuteOf(slot.stop) - minuteOf(slot.start) : 60;

function keyed(entry, words, name, act) {
  const button = buttonOf(words, act, { 'aria-label': say('all.labelled', { words, title: entry.title }) });
  button.dataset.key = name + ' ' + entry.key;
  return button;
}

function buttonsOf(entry) {
  const slot = slotOf(entry), there = entry.to || slot, isGone = entry.kind === 'lost' || entry.kind === 'cancelled', booking = bookingOf(entry);
  const again = () => askAgain(booking, { day: slot.day, start: slot.start, length: lengthOf(slot) }, entry.kind === 'lost' && entry.mark === 'T');
  const isWaiting = entry.kind === 'lost' && entry.mark === 'T' && !booking.withdrawn;
  return el('span', { className: 'buttons' }, isGone ? keyed(entry, say('all.askAgain'), 'again', again) : null,
    keyed(entry, say('all.showDay'), 'newsday', () => page.goTo({ day: there.day, room: entry.room, view: 'day' })),
    isWaiting ? cancelButton(booking, say('all.withdraw'), (words, act) => keyed(entry, words, 'newswithdraw', act)) : null,
    keyed(entry, say('newslist.told'), 'told', () => tellOf([entry])));
}

function itemOf(entry) {
  const [word, kind] = HEADS[entry.kind], booking = bookingOf(entry), trouble = troubles.get(entry.key) || troubleOf(booking);
  return el('li', {}, chipOf(word, kind), ' ', el('b', {}, entry.title), ' ',
    el('span', {}, say('newslist.request', { room: labelOf(entry.room), id: entry.id }) + ' ' + storyOf(entry, booking.withdrawn)),
    trouble ? el('span', { className: 'error' }, trouble) : null, buttonsOf(entry));
}

async function tellOf(entries) {
  const trouble = await tell(entries);
  for (const { key } of entries) if (trouble) troubles.set(key, trouble); else troubles.delete(key);
  showNews();
}

async function tellDay(day, entries) {
  const words = say('newslist.reallyAll', { number: entries.length, day: dayText(day) });
  if (await sure(words, say('newslist.all'), say('all.no'))) tellOf(entries);
}

function dayItem(day, entries, isFew) {
  const isShown = folded.get(day) ?? isFew, count = whole.has(day) ? entries.length : MOST_OF_DAY;
  const summary = el('summary', {}, say('newslist.day', { day: capital(dayText(day)), changes: newsLine(entries) }));
  summary.dataset.key = 'newsfold ' + day;
  summary.addEventListener('click', event => {
    event.preventDefault();
    folded.set(day, !isShown);
    showNews();
  });
  const details = el('details', { open: isShown, 'aria-label': dateText(day) }, summary);
  if (!isShown) return details;
  details.append(el('ul', {}, ...entries.slice(0, count).map(itemOf)));
  if (entries.length > count) details.append(buttonOf(say('newslist.more', { number: entries.length - count }), () => { whole.add(day); showNews(); }));
  if (entries.length > 1) details.append(buttonOf(say('newslist.toldAll', { number: entries.length }), () => tellDay(day, entries)));
  return details;
}

/** The days, as many of them open as have few entries together. */
function daysOf(entries) {
  const days = new Map();
  for (const entry of entries) days.set(slotOf(entry).day, [...days.get(slotOf(entry).day) || [], entry]);
  let shown = 0;
  return [...days].map(([day, own]) => {
    shown += own.length;
    return dayItem(day, own, shown <= MOST_OPEN);
  });
}

export function showNews() {
  const entries = untold(), line = newsLine(entries), bar = byId('bar');
  const held = document.activeElement && document.activeElement.dataset.key;
  document.title = (entries.length ? '(' + entries.length + ') ' : '') + office.name;
  bar.hidden = !entries.length;
  bar.classList.toggle('lost', entries.some(entry => entry.kind === 'lost'));
  if (!entries.length) isOpen = false;
  byId('news').hidden = !isOpen;
  byId('bar-open').setAttribute('aria-expanded', isOpen);
  put({ 'bar-words': line && say('newslist.bar', { changes: line }), 'bar-open': isOpen ? say('newslist.hide') : say('newslist.show') });
  renew(byId('news-days'), ...(isOpen ? daysOf(entries) : []));
  if (held && document.activeElement === document.body) focusAgain(held);
}

function focusAgain(held) {
  const button = [...byId('news-days').querySelectorAll('[data-key]')].find(each => each.dataset.key === held && !each.disabled);
  if (isOpen && /^(again|news|told)/.test(held)) (button || byId('news-title')).focus();
}

export function openNews() {
  isOpen = !isOpen;
  showNews();
  if (isOpen) byId('news-title').focus();
}

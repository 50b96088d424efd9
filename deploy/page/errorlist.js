// The error log of a room in a desk's words: the requests without a room, which may be withdrawn while they aren't final, and the cancels
// that found no booking.
import { byId, dateText, el, buttonOf, readErrors, renew } from './texts.js';
import { cancelButton, troubleOf } from './cancel.js';
import { say } from './words.js';

/** What the office says where there are none. */
const NONE = '(no errors)';
let shown = { room: '', lines: [] };
const bookings = new Map();   // by room and id: what may be withdrawn

/** Shows these lines, or, without any, those that were shown last. */
export function showErrors(read = shown) {
  shown = read;
  const { withdrawn } = readErrors(shown.lines);
  renew(byId('errors'), ...shown.lines.map(line => itemOf(line, withdrawn)));
}

function itemOf(line, withdrawn) {
  const [, mark, id, target, day, hours, title] = /^([CT]) (\d+-\d+) (?:cancel (\d+-\d+)$|(\d{4}-\S+) (\S+) (.*))/.exec(line) || [], isFinal = mark === 'C';
  if (!id) return el('li', {}, line === NONE ? say('errorlist.none') : line);
  if (target) return el('li', {}, say(isFinal ? 'errorlist.cancel' : 'errorlist.cancelOpen', { id, target }));
  const request = { id, date: dateText(day), hours, title }, withdrawnBy = by => say('errorlist.withdrawn', { ...request, by });
  if (isFinal) return el('li', {}, say('errorlist.request', request));
  if (withdrawn.has(id)) return el('li', {}, withdrawnBy(withdrawn.get(id)));
  const name = shown.room + ' ' + id;
  if (!bookings.has(name)) bookings.set(name, { room: shown.room, title, now: { id, state: 'logged', mark: 'T' } });
  const booking = bookings.get(name), withdraw = (words, act) => buttonOf(words, act, { 'aria-label': say('all.labelled', { words, title }) });
  return el('li', {}, booking.withdrawn ? withdrawnBy(booking.withdrawn) : say('errorlist.requestOpen', request),
    booking.withdrawn ? null : el('span', { className: 'buttons' }, cancelButton(booking, say('all.withdraw'), withdraw)),
    el('span', { className: 'error' }, troubleOf(booking)));
}

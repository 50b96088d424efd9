// The coming bookings of a room as a list, day by day, for a month from the chosen day on; a press opens the booking's box.
import { byId, dayBeside, el, hoursText, renew, dateText, dayText } from './texts.js';
import { at, labelOf, sheetOf } from './office.js';
import { openBox } from './box.js';
import { chipOf, stateOf } from './states.js';
import { capital, say } from './words.js';

const DAYS = 31;

const daysShown = () => [...new Set(Array.from({ length: DAYS }, (_, step) => dayBeside(at.day, step)))];
export const comingColumns = () => daysShown().map(day => ({ room: at.room, day }));
/** The room, and from which of these days to which. */
export const titleOf = days => say('coming.title', { room: labelOf(at.room), from: dateText(days[0]), to: dateText(days.at(-1)) });
export const comingTitle = () => titleOf(daysShown());

function itemOf(day, row) {
  const [word, kind] = stateOf({ ...row, state: 'booked' }), hours = hoursText(row.start, row.stop);
  const button = el('button', { type: 'button', className: 'meeting', 'aria-haspopup': 'dialog', 'aria-label': [dayText(day), hours, row.title, word].join(', ') },
    el('span', { className: 'hours' }, hours), ' ', el('b', {}, row.title), ' ', chipOf(word, kind));
  button.dataset.day = day;
  button.dataset.id = row.id;
  return el('li', {}, button);
}

export function showComing() {
  const sheets = daysShown().map(day => ({ day, sheet: sheetOf(at.room, day) })), unread = sheets.filter(({ sheet }) => !sheet).length;
  const held = byId('coming').contains(document.activeElement) ? document.activeElement.dataset.id : '';
  const days = sheets.filter(({ sheet }) => sheet && sheet.rows && sheet.rows.length).map(({ day, sheet }) =>
    el('section', { 'aria-label': dateText(day) }, el('h3', {}, capital(dayText(day))), el('ul', {}, ...sheet.rows.map(row => itemOf(day, row)))));
  const isUnknown = sheets.some(({ sheet }) => sheet && !sheet.rows);
  const words = isUnknown ? say('all.unknownRoom') : unread ? say('coming.unread', { count: unread }) : days.length ? '' : say('coming.none');
  renew(byId('coming'), ...days, ...(words ? [el('p', { className: 'hint' }, words)] : []));
  const button = held && [...byId('coming').querySelectorAll('[data-id]')].find(each => each.dataset.id === held);
  if (button) button.focus({ preventScroll: true });
}

/** A booking of the list was pressed: its box is that of the sheet as it is now. */
export function openComing(event) {
  const button = event.target.closest('[data-id]'), { day, id } = button ? button.dataset : {}, sheet = day && sheetOf(at.room, day);
  const row = sheet && sheet.rows && sheet.rows.find(each => each.id === id);
  if (row) openBox(at.room, day, row);
}

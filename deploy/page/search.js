// Titles that are searched for, over the sheets that this browser has read: those of this page, and those that it kept of earlier times.
import { byId, el, buttonOf, hoursText, put, renew, dateText, dayText } from './texts.js';
import { knownSheets, labelOf, page } from './office.js';
import { say } from './words.js';

const MOST = 100;

/** The title with what was searched for marked in it. */
function marked(title, wanted) {
  const place = title.toLowerCase().indexOf(wanted);
  return el('b', {}, title.slice(0, place), el('mark', {}, title.slice(place, place + wanted.length)), title.slice(place + wanted.length));
}

function itemOf({ room, day, row }, wanted) {
  const where = [dayText(day, 'short'), hoursText(row.start, row.stop), labelOf(room)].join(', ');
  return el('li', {}, marked(row.title, wanted), el('span', {}, ' ' + where + ' '),
    buttonOf(say('all.showDay'), () => page.goTo({ day, room, view: 'day' }), { 'aria-label': say('search.showOf', { title: row.title, where }) }));
}

export function showSearch() {
  const wanted = byId('search-for').value.trim().toLowerCase(), sheets = knownSheets();
  const days = [...new Set(sheets.map(sheet => sheet.day))].sort(), span = days.length ? { from: dateText(days[0]), to: dateText(days.at(-1)) } : {};
  const found = wanted ? sheets.flatMap(({ room, day, rows }) => rows.filter(row => row.title.toLowerCase().includes(wanted)).map(row => ({ room, day, row }))) : [];
  found.sort((one, other) => (one.day + String(one.row.start).padStart(4, '0')).localeCompare(other.day + String(other.row.start).padStart(4, '0')));
  put({ 'search-words': !wanted ? '' : say(found.length > MOST ? 'search.foundMore' : 'search.found', { count: found.length, shown: MOST }),
    'search-hint': say('search.hint', { count: sheets.length, days: say('search.days', { count: days.length }), ...span }) });
  renew(byId('search-found'), ...found.slice(0, MOST).map(each => itemOf(each, wanted)));
}

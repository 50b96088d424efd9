// What is printed for a door: the sheet of one day and room.
import { byId, el, hoursText, dateText, dayText } from './texts.js';
import { at, clock, labelOf, now, office, sheetOf } from './office.js';
import { qrDrawing } from './qr.js';
import { stateOf } from './states.js';
import { capital, say } from './words.js';

/** The sheet of one day and room, for its door; else what is on the screen is printed. */
export function printDoor() {
  const sheet = sheetOf(at.room, at.day), rows = sheet && sheet.rows || [];
  const lines = rows.map(row => el('tr', {}, el('td', {}, hoursText(row.start, row.stop)),
    el('td', {}, row.title, el('br'), el('small', {}, row.id + ', ' + stateOf({ ...row, state: 'booked' })[0]))));
  byId('door').replaceChildren(el('h2', {}, labelOf(at.room)), el('h3', {}, capital(dayText(at.day))),
    lines.length ? el('table', {}, ...lines) : el('p', {}, say(sheet ? 'print.none' : 'print.notRead')),
    el('p', {}, sheet ? say('print.asOf', { office: office.name, day: dateText(now().day), time: clock(sheet.at) }) : office.name),
    qrDrawing(location.origin + '/#' + at.day + '/day/' + at.room, say('print.code')) || '');
  document.body.classList.add('for-door');
  window.print();
}

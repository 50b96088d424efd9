// The buttons of a tablet at a door: to book the room from now on, to check in, and to end what is under way. Each is sent once.
import { buttonOf, MIDNIGHT, renew, timeOf } from './texts.js';
import { Fault, now, page } from './office.js';
import { say } from './words.js';
import { addHere, isKnown, readHere, releaseOf, toCheckIn } from './checkin.js';
import { askBook, askCancel, LENGTHS, markHere } from './tablet.js';

const ARMED = 10000, SAID = 60000;
let at = { room: '', rows: [] };   // what is shown
let armed = '', isBusy = false;
let said = { words: '', until: 0 };

const under = minute => at.rows.find(row => row.start <= minute && minute < row.stop) || null;
export const saidNow = () => Date.now() < said.until ? said.words : '';

function leave(words) { said = { words, until: Date.now() + SAID }; }

/** Puts the buttons of this moment into a place; none where the office isn't heard, or the room's door has none. */
export function showActs(place, room, rows, door, isHeard) {
  at = { room, rows: rows || [] };
  const { minute } = now(), present = under(minute), buttons = [];
  place.hidden = !door || !rows || !isHeard;
  if (place.hidden) return renew(place);
  const coming = door.release ? toCheckIn(at.rows, minute) : null, goes = releaseOf(at.rows, minute, door.release);
  if (coming) buttons.push(actButton(goes ? say('acts.checkInBy', { time: timeOf(Math.min(goes.at, MIDNIGHT - 1)) }) : say('acts.checkIn'), checkIn, 'main'));
  if (present) buttons.push(actButton(armed === present.id ? say('acts.reallyEnd') : say('acts.end'), end, armed === present.id ? 'armed' : ''));
  const free = (at.rows.find(row => row.start > minute) || { start: MIDNIGHT }).start - minute;
  if (!present) for (const length of LENGTHS.filter(each => each <= free)) buttons.push(actButton(say('acts.book', { length }), () => book(length), ''));
  renew(place, ...buttons);
}

function actButton(words, act, kind) {
  const button = buttonOf(words, () => once(act), { className: kind });
  button.disabled = isBusy;
  return button;
}

/** Does one thing at a time; what stood in its way is said. */
async function once(act) {
  if (isBusy) return;
  isBusy = true;
  page.show();
  try {
    await act();
  } catch (fault) {
    if (!(fault instanceof Fault)) throw fault;
    leave(say(fault.sent ? 'acts.perhapsDone' : 'acts.notDone', { cause: fault.message }));
  } finally {
    isBusy = false;
  }
  await page.round();
}

async function book(length) {
  const { room } = at, { day, minute } = now(), { status, json } = await askBook(room, day, timeOf(minute), length);
  if (status !== 200) return leave(say('acts.notBooked', { cause: json.name }));
  if (json.state === 'booked') {
    leave(say('acts.booked', { time: json.stop }));
    await markHere(room, json.id);
    return addHere(json.id);
  }
  leave(say('acts.late'));
  await askCancel(room, json.id);
}

async function checkIn() {
  const row = toCheckIn(at.rows, now().minute);
  if (!row) return;
  await markHere(at.room, row.id);
  addHere(row.id);
  leave(say('acts.checkedIn', { title: row.title }));
}

async function end() {
  const row = under(now().minute);
  if (!row) return;
  if (armed !== row.id) {
    armed = row.id;
    setTimeout(() => { armed = ''; page.show(); }, ARMED);
    return;
  }
  armed = '';
  const { status, json } = await askCancel(at.room, row.id);
  leave(status === 200 ? say('acts.ended', { title: row.title }) : say('acts.notEnded', { cause: json.name }));
}

/** Takes back the booking under way if nobody checked in to it in time, by what is known at this moment. */
export async function releaseUnused(room, rows, door) {
  const due = () => door && releaseOf(rows, now().minute, door.release);
  if (isBusy || !due() || now().minute < due().at) return false;
  await readHere(room);
  const goes = due();
  if (!isKnown() || !goes || now().minute < goes.at) return false;
  const { status } = await askCancel(room, goes.row.id);
  if (status === 200) leave(say('acts.released', { time: timeOf(now().minute), title: goes.row.title }));
  return status === 200;
}

// The display at a room's door, door.html#oak: free or taken, until when, and what comes next. It asks twice a minute, and where no
// reply comes it goes on by what it read last, also after it was opened anew, and shows of when that is. Where rooms.json says so, the room
// can be booked, checked in to and ended here; a code leads to the page of this room and day.
import { byId, dayBeside, el, hoursText, MIDNIGHT, put, timeOf, weekday } from './texts.js';
import { Fault, askFile, askOffice, askSheet, clock, labelOf, missed, now, office, page, silence } from './office.js';
import { showMet } from './met.js';
import { releaseUnused, saidNow, showActs } from './acts.js';
import { forgetHere, readHere } from './checkin.js';
import { doorOf } from './tablet.js';
import { qrDrawing } from './qr.js';
import { keepFiles } from './offline.js';
import { fillWords } from './filling.js';
import { say } from './words.js';

const EVERY = 30000, TICK = 1000, SIZES = [1, 0.92, 0.85, 0.78, 0.71, 0.64, 0.57, 0.5];
/** The sheets of today and tomorrow as they were read last: `days` by day, and when. */
let news = { days: {}, at: null };
let timer = 0;
/** What the office's service said of itself last: status.json. */
let status = null;
/** The address that the code shows, and what was made to fit the screen last. */
let coded = '', fitted = '';

const roomOf = () => location.hash.slice(1);
const keep = () => 'rooms.door.' + roomOf();

function readKept() {
  try { news = JSON.parse(localStorage.getItem(keep())) || { days: {}, at: null }; } catch { news = { days: {}, at: null }; }
}

async function round() {
  clearTimeout(timer);
  const room = roomOf();
  try {
    if (!office.isKnown) await askOffice();
    if (room) await askDays(room);
    if (room && doorOf(room)) await askUse(room);
  } catch (fault) {
    if (!(fault instanceof Fault)) throw fault;
    missed(fault);
    forgetHere();
  }
  status = await askFile('/status.json');
  show();
  timer = setTimeout(round, EVERY);
}

async function askDays(room) {
  const today = now().day, days = {};
  for (const day of [today, dayBeside(today, 1)]) days[day] = (await askSheet(room, day)).rows;
  if (room !== roomOf()) return;
  news = { days, at: Date.now(), label: labelOf(room), zone: office.zone };
  try { localStorage.setItem(keep(), JSON.stringify(news)); } catch { /* then it lasts as long as this page */ }
}

/** Who checked in; and what nobody checked in to goes. */
async function askUse(room) {
  await readHere(room);
  if (await releaseUnused(room, news.days[now().day] || [], doorOf(room))) await askDays(room);
}

/** What a room is at this minute: whether it is taken, until when, by what, and what comes next. */
function stateAt(rows, minute) {
  const present = rows.find(row => row.start <= minute && minute < row.stop) || null;
  const next = rows.find(row => row.start > minute) || null;
  let until = present ? present.stop : next ? next.start : MIDNIGHT;
  // bookings that follow one another without a break leave no free minute between them
  if (present) for (const row of rows) if (row.start === until) until = row.stop;
  return { present, next, until };
}

function show() {
  const room = roomOf();
  if (news.zone && !office.zone) office.zone = news.zone;
  const { day, minute, time } = now(), rows = news.days[day], isOld = silence.failures > 1 || (silence.failures > 0 && silence.cause.sent);
  document.title = office.isKnown ? labelOf(room) : news.label || room;
  document.body.className = !rows ? 'unknown' : stateAt(rows, minute).present ? 'taken' : 'free';
  document.body.classList.toggle('old', isOld);
  if (!room) showRooms(); else if (!rows) showUnknown(rows); else showState(stateAt(rows, minute), day);
  const at = news.at ? clock(new Date(news.at)).slice(0, 5) : '';
  showMet(byId('met'), status);
  showActs(byId('acts'), room, rows, doorOf(room), office.isKnown && silence.failures === 0);
  document.body.classList.toggle('acts', !byId('acts').hidden);
  put({ said: saidNow() });
  showCode(room, day);
  put({ room: document.title, news: !isOld ? time.slice(0, 5) : at ? say('door.oldNews', { time: at }) : say('door.noNews') });
  fit(room);
}

/** All but a list of rooms is as large as the screen has room for, however long its sentences are. */
function fit(room) {
  const page = document.documentElement, what = [innerWidth, innerHeight, document.body.className, document.body.textContent].join(' ');
  if (what === fitted) return;
  fitted = what;
  for (const size of room ? SIZES : [1]) {
    document.body.style.setProperty('--fit', size);
    if (page.scrollHeight <= innerHeight && page.scrollWidth <= innerWidth) return;
  }
}

function showState({ present, next, until }, day) {
  const tomorrow = dayBeside(day, 1), first = (news.days[tomorrow] || [])[0], word = present ? say('door.taken') : say('door.free');
  byId('word').style.setProperty('--letters', word.length);
  put({ word, until: until === MIDNIGHT && !present ? say('door.restOfDay') : say('door.until', { time: timeOf(until) }),
    title: present ? present.title : '', next: next ? say('door.next', { hours: hoursText(next.start, next.stop), title: next.title })
      : first ? say('door.nextDay', { weekday: weekday(tomorrow), hours: hoursText(first.start, first.stop), title: first.title }) : say('door.nothingElse') });
}

function showUnknown(rows) {
  put({ word: '?', until: rows === null ? say('all.unknownRoom') : say('door.nothingKnown'), title: '', next: '' });
}

/** A code that opens the page at this room and day. */
function showCode(room, day) {
  const address = room ? location.origin + '/#' + day + '/day/' + room : '';
  if (address === coded) return;
  coded = address;
  byId('code').replaceChildren(...[address && qrDrawing(address, say('door.code', { address }))].filter(each => each));
}

/** Without a room in the address: which there are. */
function showRooms() {
  put({ word: '', until: say('door.whichRoom'), title: '' });
  if (byId('next').children.length === office.rooms.length) return;
  byId('next').replaceChildren(...office.rooms.map(room => el('a', { href: '#' + room.name }, labelOf(room.name))));
}

/** Where the browser can, the screen stays on. */
async function stayOn() {
  try { await navigator.wakeLock.request('screen'); } catch { /* then the tablet's own settings say */ }
}

function begin() {
  forgetHere();
  readKept();
  show();
  round();
}

fillWords();
Object.assign(page, { show, round });
window.addEventListener('hashchange', begin);
document.addEventListener('visibilitychange', () => { if (!document.hidden) { stayOn(); round(); } });
setInterval(show, TICK);
stayOn();
begin();
keepFiles();

// The front desk as a whole: the address, the rounds of asking, and the views. It asks the office's routes alone,
// and shows every text of theirs as text. `rooms.json` names the rooms.
//
// texts.js has what needs no reply, office.js asks; over them stand states.js, cancel.js and box.js (any request), mine.js over follow.js
// (this browser's own), offers.js, mail.js and wish.js under form.js (what is asked for), many.js (many at once), move.js over moving.js
// and movelist.js (changes), grid.js, newslist.js over news.js, and this file.
// Each of the lower ones reaches the page as a whole by `page` of office.js.
// Views beside the grid: month.js, coming.js, find.js over needs.js, with anyroom.js, and search.js; ahead.js says which of their sheets are asked for.
import { byId, el, dayBeside, FIRST, isDay, LAST, MIDNIGHT, put, timeOf, dayText } from './texts.js';
import { Fault, askErrors, askOffice, askSheet, at, clock, labelOf, missed, momentOf, now, office, page, sheetOf, silence } from './office.js';
import { closeBox } from './box.js';
import { askMine, readMine, showMine, takeMine } from './mine.js';
import { report, reportNoMore } from './states.js';
import { submit } from './form.js';
import { showForm, startOver, typed } from './wish.js';
import { standsForNone } from './offers.js';
import { findBroken, startMany } from './many.js';
import { askMoves } from './movelist.js';
import { showMet } from './met.js';
import { showElsewhere } from './elsewhere.js';
import { showMailField } from './mail.js';
import { askNews, status } from './news.js';
import { openNews, showNews } from './newslist.js';
import { dropOldSheets } from './kept.js';
import { showErrors } from './errorlist.js';
import { foundColumns, showFound } from './find.js';
import { showNeeds } from './needs.js';
import { askAny, typedAny } from './anyroom.js';
import { due } from './ahead.js';
import { monthBeside, monthColumns, monthTitle, moveInMonth, showMonth } from './month.js';
import { comingColumns, comingTitle, openComing, showComing, titleOf } from './coming.js';
import { showSearch } from './search.js';
import { keepFiles } from './offline.js';
import { fillWords } from './filling.js';
import { capital, say } from './words.js';
import { startLanguageMenu } from './languagemenu.js';
import { printDoor } from './print.js';
import { columns, focusGrid, keepCursor, moveCursor, showGrid, watchWidth, weekShown } from './grid.js';

const EVERY = 30000, AGAIN = 4000, VIEWS = ['day', 'week', 'month', 'coming', 'find', 'search'];
let rounds = 0, timer = 0;

// ---- the address: #1995-12-18, or #1995-12-18/week/oak

function addressOf({ day, view, room }) {
  const isFirst = !office.rooms.length || room === office.rooms[0].name;
  return '#' + day + (view === 'day' && isFirst ? '' : '/' + view + '/' + room);
}

/** Shows what the address names; what it can't name is replaced, with a word about it. */
function readAddress() {
  const [day, view, room] = location.hash.slice(1).split('/'), words = [];
  const isRoom = office.rooms.some(each => each.name === room);
  if (day && !isDay(day)) words.push(say('desk.noDay', { day }));
  if (view && !VIEWS.includes(view)) words.push(say('desk.noView', { view }));
  if (room && office.rooms.length && !isRoom) words.push(say('desk.noRoom', { room }));
  at.day = isDay(day) ? day : now().day;
  at.view = VIEWS.includes(view) ? view : 'day';
  at.room = isRoom || !office.rooms.length ? room || '' : office.rooms[0].name;
  byId('word').textContent = words.join(' ');
  show();
  round();
}

/** Goes to another day, view or room, as a step that the browser's back button takes back. */
function goTo(change) {
  const address = addressOf({ ...at, ...change });
  if (location.hash === address) return readAddress();
  location.hash = address;
}

/** The other day of a step: by months where a month is shown, by weeks in a week and in a list. */
function step(sign) { goTo({ day: at.view === 'month' ? monthBeside(at.day, sign) : dayBeside(at.day, sign * (['week', 'coming'].includes(at.view) ? 7 : 1)) }); }

// ---- asking

/** The sheets that a view needs, and how it is shown; the grid shows a day and a week. */
const OTHERS = {
  month: { wanted: monthColumns, show: showMonth }, coming: { wanted: comingColumns, show: showComing },
  find: { wanted: foundColumns, show: showFound }, search: { wanted: () => [], show: showSearch },
};
const wanted = () => OTHERS[at.view] ? OTHERS[at.view].wanted() : columns();

/** Asks for all that is shown; of two rounds under way only the later one goes on. */
async function round() {
  const number = ++rounds;
  clearTimeout(timer);
  const begun = new Date();
  let pause = EVERY;
  try {
    if (!office.isKnown) return await loadOffice();
    for (const { room, day } of OTHERS[at.view] ? due(wanted()) : wanted()) {
      await askSheet(room, day);
      if (number !== rounds) return;
      if (OTHERS[at.view] && day !== at.day) show();
    }
    await askMine(begun);
    await askMoves();
    if (byId('log').open) showErrors({ room: at.room, lines: await askErrors(at.room) });
  } catch (fault) {
    if (!(fault instanceof Fault)) throw fault;
    if (number !== rounds) return;
    missed(fault);
    if (silence.failures < 3) pause = AGAIN;
  }
  await askNews();
  if (number !== rounds) return;
  show();
  timer = setTimeout(round, pause);
}

/** Reads which rooms there are; then the address is read anew, and the first round begins. */
async function loadOffice() {
  await askOffice();
  byId('office').textContent = office.name;
  for (const list of [byId('room'), byId('at-room')]) {
    list.replaceChildren(...office.rooms.map(room => el('option', { value: room.name }, labelOf(room.name))));
  }
  showNeeds();
  byId('find-from').value = timeOf(office.from);
  byId('find-to').value = timeOf(Math.min(office.to, MIDNIGHT - 1));
  readAddress();
  findBroken();
}

// ---- showing

function show() {
  const read = wanted().map(({ room, day }) => sheetOf(room, day)), isRead = OTHERS[at.view] ? read.some(sheet => sheet) : read.length > 0 && read.every(sheet => sheet);
  showAlarm(read.filter(sheet => sheet), isRead);
  showHead();
  for (const view of Object.keys(OTHERS)) byId(view).hidden = at.view !== view;
  byId('month-hint').hidden = at.view !== 'month';
  byId('scroll').hidden = byId('legend').hidden = at.view in OTHERS;
  (OTHERS[at.view] || { show: showGrid }).show();
  showForm();
  showNews();
  showMet(byId('met'), status);
  showElsewhere(byId('elsewhere'), status);
  showMailField();
}

function showHead() {
  const day = dayText(at.day), titles = { day: capital(day), week: titleOf(weekShown()), month: monthTitle(), coming: comingTitle(),
    find: say('desk.find', { day }), search: say('desk.search') };
  byId('sheet-title').textContent = titles[at.view];
  byId('day').value = at.day;
  byId('at-room').value = at.room;
  byId('before').disabled = at.day === FIRST;
  byId('after').disabled = at.day === LAST;
  byId('door-link').href = 'door.html#' + at.room;
  byId('calendar-link').href = at.room + '.ics';
  for (const button of byId('views').children) button.setAttribute('aria-pressed', button.dataset.view === at.view);
  byId('zone').textContent = [office.zone ? say('desk.timesOfZone', { zone: office.zone }) : say('desk.times'),
    office.zoneTrouble ? say('desk.zoneUnknown', { zone: office.zoneTrouble }) : ''].filter(words => words).join(' ');
}

/** Since when nothing was heard. One that is surely no more than the pause between two stretches of serving isn't reported. */
function showAlarm(read, isRead) {
  const isPause = silence.failures === 1 && !silence.cause.sent && isRead && !read.some(sheet => sheet.isKept);
  const isLost = silence.failures > 0 && !isPause;
  const at = new Date(Math.min(...read.map(sheet => sheet.at))), time = !read.length ? '' : read.some(sheet => sheet.isKept) ? momentOf(at) : clock(at);
  document.body.classList.toggle('old', isLost);
  byId('alarm').hidden = !isLost;
  if (isLost) reportNoMore();
  const lost = isLost ? say('desk.lost', { time: clock(silence.since), cause: silence.cause.message }) : '';
  put({ alarm: lost && lost + ' ' + (isRead ? say('desk.old', { time }) : say('desk.noSheet')),
    fresh: isRead ? say(isLost ? 'desk.stale' : 'desk.fresh', { time }) : '' });
}

function start() {
  fillWords();
  startLanguageMenu(byId('language'));
  Object.assign(page, { show, showLists() { showMine(); showNews(); showErrors(); }, round, goTo });
  dropOldSheets();
  readMine();
  startMany();
  byId('before').addEventListener('click', () => step(-1));
  byId('after').addEventListener('click', () => step(1));
  byId('today').addEventListener('click', () => goTo({ day: now().day }));
  byId('day').addEventListener('change', event => { if (isDay(event.target.value)) goTo({ day: event.target.value }); });
  byId('views').addEventListener('click', event => { if (event.target.dataset.view) goTo({ view: event.target.dataset.view }); });
  byId('at-room').addEventListener('change', event => goTo({ room: event.target.value }));
  byId('month').addEventListener('keydown', moveInMonth);
  byId('coming').addEventListener('click', openComing);
  byId('search-for').addEventListener('input', showSearch);
  byId('grid').addEventListener('keydown', moveCursor);
  byId('grid').addEventListener('focusin', keepCursor);
  byId('skip').addEventListener('click', event => { event.preventDefault(); byId('request').focus(); });
  byId('go-on').addEventListener('click', () => { byId('title').focus({ preventScroll: true }); byId('request').scrollIntoView(); });
  byId('form').addEventListener('submit', submit);
  byId('form').addEventListener('input', typed);
  byId('clear').addEventListener('click', () => { standsForNone(); startOver(); report(''); });
  for (const id of ['room', 'wish-day', 'wish-start', 'length', 'find-length', 'find-from', 'find-to']) byId(id).addEventListener('change', show);
  for (const id of ['find-days', 'find-seats', 'find-has']) byId(id).addEventListener('change', () => { show(); round(); });
  byId('any').addEventListener('submit', askAny);
  byId('find').addEventListener('input', typedAny);
  byId('bar-open').addEventListener('click', openNews);
  byId('log').addEventListener('toggle', round);
  byId('box').addEventListener('close', () => { closeBox(); showMine(); focusGrid(); });
  byId('print-door').addEventListener('click', printDoor);
  watchWidth(() => { show(); round(); });
  window.addEventListener('afterprint', () => document.body.classList.remove('for-door'));
  window.addEventListener('hashchange', readAddress);
  window.addEventListener('storage', takeMine);
  document.addEventListener('visibilitychange', () => { if (!document.hidden) round(); });
  readAddress();
  keepFiles();
}

start();

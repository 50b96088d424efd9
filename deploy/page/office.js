// The office, what it is asked, and what it answered last. The desk and the door know nothing of it but by these calls.
import { clockOf, readErrors, readSheet, minuteOf, dayText } from './texts.js';
import { officeSpeaks } from './language.js';
import { say } from './words.js';
import { keepSheet, keptNames, keptSheet } from './kept.js';

const PATIENCE = 65000;

/** What rooms.json says; `from` and `to` are minutes, `zone` is that of the rooms' clocks, `door` what tablets at doors may do. */
export const office = { isKnown: false, name: say('office.rooms'), rooms: [], from: 420, to: 1200, zone: '', zoneTrouble: '', door: null };
/** What the address names. */
export const at = { day: '', view: 'day', room: '' };
/** How long nothing was heard, and why; `sent` in the cause: the office may have had the request nevertheless. */
export const silence = { failures: 0, since: null, cause: null };
/** What the page as a whole does; each page puts its own in. */
export const page = { show() {}, showLists() {}, round() {}, goTo() {} };

const sheets = new Map();   // by room and day
const errors = new Map();   // by room
const seen = new Map();     // when a state was seen first

export const now = () => clockOf(new Date(), office.zone);
export const clock = date => clockOf(date, office.zone).time;
/** A moment in words: its time, and its day where that isn't today. */
export function momentOf(date) {
  const { day, time } = clockOf(date, office.zone), today = now().day, short = time.slice(0, 5);
  return day === today ? short : say('all.dayTime', { day: dayText(day, 'short'), time: short });
}
export const labelOf = room => (office.rooms.find(each => each.name === room) || {}).label || room;

/** When the page saw this state for the first time. */
export function sinceOf(state) {
  if (!seen.has(state)) seen.set(state, new Date());
  return seen.get(state);
}

// ---- asking

/** No usable reply. `sent`: the office may have had the request nevertheless; `isPause`: it takes none at the moment, as between two stretches of serving. */
export class Fault extends Error {
  constructor(sent, words, isPause = false) { super(words); Object.assign(this, { sent, isPause }); }
}

/** Whatever reply comes. */
export async function fetched(path, body, method = body === undefined ? 'GET' : 'POST') {
  try {
    const words = { cache: 'no-store', signal: AbortSignal.timeout(PATIENCE), method, body };
    // the address of the page may have a user and a password in it, which no address to be fetched may have
    const reply = await fetch(new URL(path, location.origin), words);
    return { status: reply.status, text: await reply.text(), json: null };
  } catch {
    throw new Fault(true, say('fault.noReply'));
  }
}

/** A reply with status 200, or a refusal of the office's; any other is a fault. */
export async function ask(path, body) {
  const reply = await fetched(path, body);
  if (reply.status === 401 || reply.status === 403) throw new Fault(false, say('fault.password'));
  try { reply.json = JSON.parse(reply.text); } catch { /* a sheet, or a page of the proxy */ }
  const error = reply.json && reply.json.error;
  if (error === 'not sent') throw new Fault(false, say('fault.notTaking'), true);
  if (error === 'no reply') throw new Fault(true, say('fault.noReply'));
  if (reply.status !== 200 && !(reply.json && reply.json.refusal) && error !== 'bad request') throw new Fault(true, say('fault.status', { status: reply.status }));
  if (path !== '/rooms.json') heard();
  return reply;
}

/** The first good reply ends a silence. */
function heard() {
  const was = silence.failures;
  Object.assign(silence, { failures: 0, since: null, cause: null });
  if (was) page.show();
}

export function missed(fault) {
  silence.failures += 1;
  silence.since = silence.since || new Date();
  silence.cause = fault;
}

let may = false;

/** Lets the browser ask for the password of those who book before anything is sent: a GET of this path is behind it, and does nothing. */
export async function askMayBook() {
  if (may) return;
  const reply = await fetched('/submit').catch(fault => { throw new Fault(false, fault.message); });
  if (reply.status === 401 || reply.status === 403) throw new Fault(false, say('fault.mayNotBook'));
  may = reply.status === 405;
}

/** What a file says that the office's service writes beside serving; null where there is none, or none that can be read. */
export async function askFile(path) {
  try {
    const reply = await fetched(path);
    return reply.status === 200 ? JSON.parse(reply.text) : null;
  } catch (fault) {
    if (!(fault instanceof Fault || fault instanceof SyntaxError)) throw fault;
    return null;
  }
}

/** Puts a mark that all desks of the office see. It may be put again. */
export const putMark = path => putText(path, '');

/** Puts a text where the office's service finds it, or a mark. */
export async function putText(path, text) {
  await askMayBook();
  const reply = await fetched(path, text, 'PUT');
  if (reply.status === 401 || reply.status === 403) throw new Fault(false, say('fault.password'));
  if (reply.status !== 201 && reply.status !== 204) throw new Fault(true, say('fault.status', { status: reply.status }));
}

/** A refusal that is about the office's state, where a sheet or an outcome was asked for. */
function unlessFailing(reply) {
  if (reply.status === 503) throw new Fault(true, say('fault.failing', { cause: reply.json.name }));
  return reply;
}

export async function askOffice() {
  const reply = await ask('/rooms.json'), words = reply.json;
  if (reply.status !== 200 || !words) throw new Fault(false, say('fault.noRooms'));
  officeSpeaks(words.language);
  office.isKnown = true;
  office.name = words.office || say('office.rooms');
  office.rooms = words.rooms || [];
  office.door = words.door || null;
  if (words.from) office.from = minuteOf(words.from);
  if (words.to) office.to = minuteOf(words.to);
  try {
    clockOf(new Date(), words.zone);
    office.zone = words.zone || '';
  } catch {
    office.zoneTrouble = words.zone;
  }
}

/** Asks for a sheet and keeps it: `rows` is null where the office doesn't know the room. */
export async function askSheet(room, day) {
  const reply = unlessFailing(await ask('/rooms/' + room + '/days/' + day));
  const sheet = { rows: reply.status === 200 ? readSheet(reply.text) : null, at: new Date() };
  for (const row of sheet.rows || []) sinceOf(stateKey(room, { state: 'booked', day, ...row }));
  sheets.set(room + ' ' + day, sheet);
  keepSheet(room, day, sheet.rows ? reply.text : '', sheet.at);
  return sheet;
}

/** What a state is known by: that it is booked, for instance, and for which hours. */
export function stateKey(room, outcome) {
  const start = typeof outcome.start === 'string' ? minuteOf(outcome.start) : outcome.start;
  return [room, outcome.id, outcome.state, outcome.mark, outcome.day, start, outcome.bymark].join(' ');
}

/** The sheet that was read last; while no reply comes, also one that this browser kept from an earlier time. */
export function sheetOf(room, day) {
  const name = room + ' ' + day;
  if (!sheets.has(name) && silence.failures) {
    const kept = keptSheet(room, day);
    if (kept) sheets.set(name, { rows: kept.text ? readSheet(kept.text) : null, at: kept.at, isKept: true });
  }
  return sheets.get(name) || null;
}

/** All sheets that this browser has, of now or kept: room, day and rows. */
export function knownSheets() {
  const names = new Set([...sheets.keys(), ...keptNames()]);
  return [...names].map(name => {
    const [room, day] = name.split(' '), kept = sheets.has(name) ? null : keptSheet(room, day);
    return { room, day, rows: kept ? readSheet(kept.text) : (sheets.get(name) || {}).rows || [] };
  }).filter(({ room }) => office.rooms.some(each => each.name === room));
}

/** What became of a request, or null where the office doesn't know it. */
export async function askOutcome(room, id) {
  const reply = unlessFailing(await ask('/rooms/' + room + '/requests/' + id));
  if (reply.status === 200) sinceOf(stateKey(room, reply.json));
  return reply.status === 200 ? reply.json : null;
}

/** The lines of the error log of a room. */
export async function askErrors(room) {
  const reply = unlessFailing(await ask('/rooms/' + room + '/errors'));
  if (reply.status !== 200) return [say('office.notKnownHere')];
  const lines = reply.text.split('\n').slice(1).filter(line => line);
  errors.set(room, { ...readErrors(lines), at: new Date() });
  return lines;
}

export const errorsOf = room => errors.get(room) || null;

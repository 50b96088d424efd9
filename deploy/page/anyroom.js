// Any room: of those that are free the first one is asked for, and the next if that had gone. A request that found no room is withdrawn
// before the next one is sent, so that never two are booked; where no reply comes, none is sent any more.
import { byId, buttonOf, clashesOf, hoursText, isPlain, MIDNIGHT, plainOf, timeOf, dayText } from './texts.js';
import { Fault, ask, askMayBook, askSheet, labelOf, page } from './office.js';
import { sendCancel } from './cancel.js';
import { firstFree } from './find.js';
import { addMine, dropMine, keepMine, replied } from './mine.js';
import { stateOf } from './states.js';
import { LONGEST } from './wish.js';
import { say } from './words.js';

const MOST = 8;
let isSending = false;

function tell(words, isGood) {
  byId('any-said').replaceChildren(...[words].flat());
  byId('any-said').className = isGood ? 'good' : 'bad';
}

/** A hand is at the fields: what came of the last press is said no longer. */
export function typedAny() { if (!isSending) tell('', true); }

/** The title that is typed, or nothing where it complained. */
function titleOf() {
  const title = byId('any-title').value.trim(), plain = plainOf(title);
  if (isPlain(title) && title !== '' && title.length <= LONGEST) return title;
  const take = () => { byId('any-title').value = plain; tell(''); byId('any-title').focus(); };
  const offer = !isPlain(title) && plain && plain.length <= LONGEST ? [' ', buttonOf(say('all.takePlain', { title: plain }), take)] : [];
  tell([say('all.titleRule', { most: LONGEST }), ...offer]);
  byId('any-title').focus();
  return '';
}

/** Asks for one place after the other until one is booked. */
export async function askAny(event) {
  event.preventDefault();
  const title = titleOf();
  if (!title || isSending) return;
  isSending = true;
  byId('any-send').setAttribute('aria-disabled', true);
  try {
    await askMayBook();
    await askInTurn(title);
  } catch (fault) {
    if (!(fault instanceof Fault)) throw fault;
    tell(say('anyroom.notSent', { cause: fault.message }));
  } finally {
    isSending = false;
    byId('any-send').removeAttribute('aria-disabled');
  }
  page.round();
}

async function askInTurn(title) {
  let gone = 0;
  for (const place of firstFree().slice(0, MOST)) {
    tell(say('anyroom.asking', { where: wordsOf(place), count: gone }), true);
    const sheet = await askSheet(place.room, place.day);
    const isFree = place.start + place.length <= MIDNIGHT && !clashesOf(sheet.rows || [], place.start, place.start + place.length).length;
    const came = isFree ? await askOne(place, title) : 'gone';
    if (came !== 'gone') return;
    gone += 1;
  }
  tell(say(gone ? 'anyroom.allGone' : 'anyroom.noneFree'));
}

const wordsOf = ({ room, day, start, length }) => say('all.where', { room: labelOf(room), day: dayText(day), hours: hoursText(start, start + length) });

/** One request: `booked`, `gone`, or `stop` where nothing more may be sent. */
async function askOne(place, title) {
  const { room, day, length } = place, start = timeOf(place.start);
  const entry = { room, title, wish: { day, start }, length, sent: new Date().toISOString() + Math.random(), now: null };
  addMine(entry);
  try {
    const reply = await ask('/submit', JSON.stringify({ room, day, start, length, title }));
    if (reply.status !== 200) return refused(entry, reply);
    entry.first = entry.now = reply.json;
    keepMine();
    const { id, state } = reply.json;
    if (state === 'booked') return tell(say('all.outcome', { state: stateOf(reply.json)[0], where: wordsOf(place), id }), true), 'booked';
    if (await sendCancel(entry)) return 'gone';
    return tell(say('anyroom.stillWaits', { id })), 'stop';
  } catch (fault) {
    if (!(fault instanceof Fault)) throw fault;
    if (!fault.sent) dropMine(entry);
    tell(say(fault.sent ? 'anyroom.perhapsBooked' : 'anyroom.notSent', { where: wordsOf(place), cause: fault.message }));
    return 'stop';
  } finally {
    replied();
  }
}

function refused(entry, { status, json }) {
  if (status === 503) return tell(say('anyroom.perhaps', { cause: json.name })), 'stop';
  dropMine(entry);
  if (json.refusal === 7) return 'gone';
  return tell(say('anyroom.notBooked', { cause: json.name })), 'stop';
}

// How a booking is moved, lengthened or renamed: it is asked for anew and the old one cancelled, in the order that loses least. Where the two
// don't meet, the new one is booked first; where they do, the old one has to go before, and its hours are the alternative of the new request.
import { clashesOf, dateText, hoursText, minuteOf, timeOf } from './texts.js';
import { Fault, ask, askMayBook, askOutcome, askSheet, labelOf } from './office.js';
import { replaceInGroups } from './groups.js';
import { handOver, mailWords } from './mail.js';
import { adoptMine } from './mine.js';
import { alone, dropMove, keepMove } from './moves.js';
import { patiently, sendRequest } from './sending.js';
import { say } from './words.js';

const stopOf = ({ start, length }) => minuteOf(start) + length;
const slotWords = slot => say('moving.slot', { room: labelOf(slot.room), date: dateText(slot.day), hours: hoursText(minuteOf(slot.start), stopOf(slot)) });

/** Whether the new hours meet the old ones, so that both can't be booked at once. */
export const meets = (old, wish) => old.room === wish.room && old.day === wish.day && minuteOf(old.start) < stopOf(wish) && minuteOf(wish.start) < stopOf(old);

export const isSame = (old, wish) => ['room', 'day', 'start', 'length', 'title'].every(name => old[name] === wish[name]);

/** What is said before: in which order it is done, and what may be lost. */
export function lossWords(old, wish) {
  const isRenamed = old.day === wish.day && old.start === wish.start && old.length === wish.length;
  const order = meets(old, wish) ? [say('moving.oldFirst'), isRenamed ? '' : say('moving.back')] : [say('moving.newFirst')];
  return [...order, say('moving.later')].filter(each => each).join(' ');
}

/** What is in the way of a move, by the sheet as it is now, in words. */
export async function inTheWay(old, wish) {
  const { rows } = await askSheet(wish.room, wish.day);
  if (!rows) return say('all.unknownRoom');
  return clashesOf(rows, minuteOf(wish.start), stopOf(wish)).filter(row => row.id !== old.id)
    .map(row => say('moving.isTaken', { hours: hoursText(row.start, row.stop), title: row.title })).join(' ');
}

/** Moves a booking, and gives what came of it: words, and whether it went well. `step` is called with what is being done. */
export async function move(old, wish, step) {
  const it = { key: old.room + ' ' + old.id, old, wish, id: '', order: meets(old, wish) ? 'old first' : 'new first' };
  const done = await alone(it, async () => {
    keepMove(it);
    try {
      await askMayBook();
      return it.order === 'new first' ? await newFirst(it, step) : await oldFirst(it, step);
    } catch (fault) {
      if (!(fault instanceof Fault)) throw fault;
      return broken(it, fault);
    }
  });
  return done || { isGood: false, words: say('moving.otherWindow') };
}

/** Nothing was sent yet, or it isn't known how far it came: then it stays among the moves that were broken off. */
function broken(it, fault) {
  const isUntouched = !it.isBegun && !fault.sent;
  if (isUntouched) dropMove(it);
  return { isGood: false, isOpen: !isUntouched, words: say(isUntouched ? 'moving.notSent' : 'moving.brokenOff', { cause: fault.message }) };
}

function begins(it, words, step) {
  step(words);
  keepMove(it);
}

const sent = ({ room, day, start, length, title }, alternatives) => ({ room, day, start, length, title, ...alternatives ? { alternatives } : {} });

async function newFirst(it, step) {
  begins(it, say('moving.asking'), step);
  const { kind, outcome, words } = await sendRequest(sent(it.wish));
  it.isBegun = kind !== 'refused';
  if (kind === 'perhaps') throw new Fault(true, words);
  if (kind === 'refused') return ends(it, false, say('moving.refused', { refusal: words }));
  it.id = outcome.id;
  if (kind === 'none') return noRoom(it, outcome);
  begins(it, say('moving.cancelling'), step);
  await cancel(it.old);
  return moved(it, outcome, 'moving.moved');
}

/** The new one has no room: it is withdrawn, so that it gets none later, and the old one stands. */
async function noRoom(it, outcome) {
  keepMove(it);
  if (outcome.mark === 'T') await cancel({ room: it.wish.room, id: it.id });
  return ends(it, false, say('moving.taken', { slot: slotWords(it.wish) }));
}

async function oldFirst(it, step) {
  begins(it, say('moving.cancelling'), step);
  const { json } = await cancel(it.old);
  it.isBegun = true;
  if (json.state !== 'cancels') return ends(it, false, say('moving.gone'));
  const isBack = it.wish.length === it.old.length && it.wish.start !== it.old.start;
  it.alternatives = isBack ? [{ day: it.old.day, start: it.old.start }] : null;
  begins(it, say('moving.asking'), step);
  const { kind, outcome, words } = await sendRequest(sent(it.wish, it.alternatives));
  if (kind === 'perhaps') throw new Fault(true, words);
  if (kind === 'booked') return taken(it, outcome);
  return backAgain(it, outcome, kind === 'refused' ? words : say('moving.meanwhile', { slot: slotWords(it.wish) }));
}

/** The new request is booked: in its own hours, or in the old ones, which were its alternative. */
function taken(it, outcome) {
  it.id = outcome.id;
  const isNew = outcome.day === it.wish.day && outcome.start === it.wish.start;
  if (isNew) return moved(it, outcome, 'moving.changed');
  return ends(it, false, say('moving.fellBack', { slot: slotWords(it.wish), id: outcome.id }), outcome);
}

/** The old one is cancelled and the new one has no room: the old hours are asked for again. `why` is a sentence. */
async function backAgain(it, outcome, why) {
  if (outcome && outcome.mark === 'T') await cancel({ room: it.wish.room, id: outcome.id });
  Object.assign(it, { wish: it.old, alternatives: null, id: '' });
  keepMove(it);
  const again = await sendRequest(sent(it.old));
  if (again.kind === 'perhaps') throw new Fault(true, again.words);
  if (again.kind === 'booked') return ends(it, false, say('moving.backAgain', { why, id: again.outcome.id }), again.outcome);
  return ends(it, false, say('moving.lost', { why, slot: slotWords(it.old) }));
}

/** Sends a cancel, and gives its reply. Without one it is looked whether it was done. */
export async function cancel({ room, id }) {
  try {
    const reply = await patiently(() => ask('/cancel', JSON.stringify({ id, room })));
    if (reply.status !== 200) throw new Fault(true, reply.json.name || say('fault.unreadable'));
    return reply;
  } catch (fault) {
    if (!(fault instanceof Fault) || !fault.sent) throw fault;
    const outcome = await askOutcome(room, id);
    if (!outcome || outcome.state !== 'cancelled') throw fault;
    return { json: { state: 'cancels', id: outcome.by } };
  }
}

/** It went well; `key` is of the sentence that says so. */
function moved(it, outcome, key) {
  const slot = slotWords({ ...it.wish, day: outcome.day, start: outcome.start });
  return ends(it, true, say(key, { title: it.wish.title, slot, id: outcome.id, old: it.old.id }), outcome);
}

/** The move is over. The new request, if there is one, stands in the old one's place among this browser's own and in the office's groups. */
async function ends(it, isGood, words, outcome = null) {
  const next = outcome ? { ...it.wish, day: outcome.day, start: outcome.start } : null;
  if (next) adoptMine(it.old, next, outcome);
  const lost = next ? await replaceInGroups(it.old, { ...next, id: outcome.id }) : '';
  const cause = next ? await handOver(outcome, 'move-mail') : null, mailed = cause === null ? '' : mailWords(outcome, cause);
  dropMove(it);
  return { isGood, words: [words, lost ? say('moving.inGroup', { cause: lost }) : '', mailed].filter(each => each).join(' ') };
}

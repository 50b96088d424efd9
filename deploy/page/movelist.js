// Changes of bookings that were broken off: what of each stands at the office, and what may be done about it.
import { byId, el, buttonOf, hoursText, minuteOf, renew, dayText } from './texts.js';
import { Fault, labelOf, page } from './office.js';
import { replaceInGroups } from './groups.js';
import { adoptMine } from './mine.js';
import { alone, dropMove, keepMove, lookAtMove, readMoves, standingOf } from './moves.js';
import { cancel } from './moving.js';
import { sendRequest } from './sending.js';
import { report } from './states.js';
import { say } from './words.js';

const known = new Map();    // what stands, by the key of a move: the outcomes of both requests, or the words of a fault
let isAtWork = false;

/** Looks at the office what stands of each move that was broken off, and that no window is at. */
export async function askMoves() {
  const moves = readMoves();
  for (const move of moves) {
    if (isAtWork) return;
    if (await alone(move, () => look(move)) === false) known.delete(move.key);
  }
  for (const key of [...known.keys()]) if (!moves.some(move => move.key === key)) known.delete(key);
  showMoves();
}

async function look(move) {
  try {
    known.set(move.key, await lookAtMove(move));
  } catch (fault) {
    if (!(fault instanceof Fault)) throw fault;
    known.set(move.key, { fault: fault.message });
  }
  return true;
}

function slotWords({ room, day, start, length }) {
  const from = minuteOf(start);
  return say('movelist.slot', { room: labelOf(room), day: dayText(day, 'short'), hours: hoursText(from, from + length) });
}

/** What stands of a move, and the buttons that go with it. */
function wordsOf(move, found) {
  const { old, wish } = move, { stands, waiting } = standingOf(found), { is } = found;
  const from = slotWords(old), to = wish.title === old.title ? slotWords(wish) : say('movelist.renamed', { slot: slotWords(wish), title: wish.title });
  const away = (words, act = () => forget(move)) => button(move, words, act);
  if (stands === 'both') {
    return [say('movelist.both', { from, old: old.id, to, new: is.id }),
      away(say('movelist.cancelOld'), () => finish(move, found)), away(say('movelist.cancelNew'), () => undo(move, found)), away(say('movelist.leaveBoth'))];
  }
  if (stands === 'new') {
    const isThere = is.day === wish.day && is.start === wish.start;
    const slot = slotWords({ ...wish, day: is.day, start: is.start });
    const words = isThere ? say('movelist.done', { to, id: is.id }) : say('movelist.fellBack', { to, slot, id: is.id });
    return [words, away(say('movelist.allRight'), () => settle(move, found))];
  }
  if (stands === 'old') {
    return waiting ? [say('movelist.notDoneWaiting', { from, to }), away(say('movelist.withdraw'), () => undo(move, found)), away(say('all.leaveIt'))]
      : [say('movelist.notDone', { from }), away(say('movelist.allRight'))];
  }
  return [say(waiting ? 'movelist.neitherWaiting' : 'movelist.neither', { from, to }), away(say('all.askFor', { what: to }), () => askFor(move, found, wish)),
    ...from === to ? [] : [away(say('all.askFor', { what: from }), () => askFor(move, found, old))], away(say('all.leaveIt'))];
}

function button(move, words, act) {
  const made = buttonOf(words, act, { disabled: isAtWork, 'aria-label': say('all.labelled', { words, title: move.old.title }) });
  made.dataset.key = words + ' ' + move.key;
  return made;
}

function forget(move) {
  dropMove(move);
  known.delete(move.key);
  showMoves();
}

/** The new request stands in the place of the old one. */
async function settle(move, { is }) {
  const next = { ...move.wish, day: is.day || move.wish.day, start: is.start || move.wish.start };
  adoptMine(move.old, next, is);
  await replaceInGroups(move.old, { ...next, id: is.id });
  forget(move);
}

const finish = (move, found) => work(move, async () => {
  await cancel(move.old);
  await settle(move, found);
  return { isGood: true, words: say('movelist.oldCancelled', { slot: slotWords(move.old) }) };
});

const undo = (move, { is }) => work(move, async () => {
  await cancel({ room: move.wish.room, id: is.id });
  forget(move);
  return { isGood: true, words: say('movelist.takenBack', { id: is.id, slot: slotWords(move.old) }) };
});

const askFor = (move, { is }, slot) => work(move, async () => {
  const { room, day, start, length, title } = slot;
  if (is && is.state === 'logged' && is.mark === 'T') await cancel({ room: move.wish.room, id: is.id });
  const { kind, outcome, words } = await sendRequest({ room, day, start, length, title });
  if (kind !== 'booked') return { isGood: false, words: kind === 'refused' ? say('movelist.refused', { refusal: words })
    : kind === 'perhaps' ? say('movelist.notBooked', { cause: words }) : say('movelist.taken', { slot: slotWords(slot) }) };
  keepMove({ ...move, wish: slot, id: outcome.id });
  await settle({ ...move, wish: slot }, { is: outcome });
  return { isGood: true, words: say('movelist.booked', { title, slot: slotWords(slot), id: outcome.id }) };
});

/** Does one thing at a time, and says what came of it. */
async function work(move, act) {
  isAtWork = true;
  showMoves();
  try {
    const { words, isGood } = await act();
    report(words, isGood);
  } catch (fault) {
    if (!(fault instanceof Fault)) throw fault;
    report(say('movelist.perhaps', { cause: fault.message }), false);
  }
  isAtWork = false;
  await askMoves();
  page.round();
}

export function showMoves() {
  const moves = readMoves().filter(move => known.has(move.key)), held = document.activeElement && document.activeElement.dataset.key;
  byId('moves').hidden = !moves.length;
  renew(byId('moves-list'), ...moves.map(move => {
    const found = known.get(move.key);
    const [words, ...buttons] = found.fault ? [say('movelist.unknown', { cause: found.fault })] : wordsOf(move, found);
    return el('li', {}, el('b', {}, move.old.title), ' ', el('span', {}, words), el('span', { className: 'buttons' }, ...buttons));
  }));
  if (held && document.activeElement === document.body && moves.length) byId('moves-title').focus();
}

// What became of this browser's own requests, by as few questions as will do: what stands on a sheet that was asked anyway isn't asked
// again, a sheet says it of all that stand on it, the error log of a room of all that have no room there; only what isn't where it
// stood is asked by its id.
import { errorsOf, askErrors, askOutcome, askSheet, at, now, sheetOf } from './office.js';
import { timeOf } from './texts.js';

const MOST = 4;
const asked = new Map();    // when a question was asked last
const moved = new Set();    // requests that aren't where they stood

const keyOf = entry => entry.room + ' ' + entry.now.id;

/** What became of it may still change: it isn't final, or it may be cancelled before its day is over. */
function isOpen(entry) {
  const outcome = entry.now;
  if (!outcome || outcome.mark !== 'C') return Boolean(outcome);
  if (outcome.state === 'cancelled') return outcome.bymark !== 'C';
  return outcome.state === 'booked' && (outcome.day === at.day || outcome.day >= now().day);
}

/** Which question tells what became of an entry. */
function questionOf(entry) {
  const outcome = entry.now, isThere = !moved.has(keyOf(entry));
  if (isThere && outcome.state === 'booked') return { kind: 'sheet', room: entry.room, of: outcome.day };
  if (isThere && outcome.state === 'logged') return { kind: 'errors', room: entry.room, of: '' };
  return { kind: 'id', room: entry.room, of: outcome.id };
}

const nameOf = question => Object.values(question).join(' ');

/** Reads an entry's state out of what was asked since the round began, where it stands in it. */
function readAgain(entry, begun) {
  const { kind, room, of } = questionOf(entry);
  const kept = kind === 'sheet' ? sheetOf(room, of) : kind === 'errors' ? errorsOf(room) : null;
  if (!kept || kept.at < begun) return false;
  const found = kind === 'sheet' ? onSheet(kept, entry.now) : inErrors(kept, entry);
  if (!found) moved.add(keyOf(entry));
  return found;
}

function onSheet({ rows }, outcome) {
  const row = (rows || []).find(each => each.id === outcome.id);
  if (!row) return false;
  Object.assign(outcome, { mark: row.mark, start: timeOf(row.start), stop: timeOf(row.stop) });
  return true;
}

function inErrors({ marks, withdrawn }, entry) {
  const mark = marks.get(entry.now.id);
  if (!mark) return false;
  entry.now.mark = mark;
  entry.withdrawn = withdrawn.get(entry.now.id) || '';
  return true;
}

/** Follows the entries by what was asked since the round began, and by a few questions more: first what moved, then what waited longest. */
export async function follow(entries, begun) {
  let waiting = entries.filter(isOpen);
  for (let left = MOST; ; left -= 1) {
    waiting = waiting.filter(entry => !readAgain(entry, begun));
    if (!left || !waiting.length) return;
    const question = nextOf(waiting);
    asked.set(nameOf(question), Date.now());
    if (question.kind === 'sheet') await askSheet(question.room, question.of);
    else if (question.kind === 'errors') await askErrors(question.room);
    else waiting = await askById(question, waiting);
  }
}

function nextOf(waiting) {
  const rank = entry => asked.get(nameOf(questionOf(entry))) || (moved.has(keyOf(entry)) ? -1 : 0);
  return questionOf(waiting.reduce((one, other) => rank(other) < rank(one) ? other : one));
}

async function askById({ room, of }, waiting) {
  const outcome = await askOutcome(room, of), isIt = entry => entry.room === room && entry.now.id === of;
  moved.delete(room + ' ' + of);
  for (const entry of waiting.filter(isIt)) {
    entry.gone = !outcome;
    if (outcome) entry.now = outcome;
  }
  return waiting.filter(entry => !isIt(entry));
}

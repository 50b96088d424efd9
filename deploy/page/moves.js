// Moves of bookings, as this browser keeps them while they last: a request is asked anew and the old booking cancelled, and if the tab is
// closed or the line cut between the two, the next load finds here what was meant, and at the office what of it stands.
import { askOutcome } from './office.js';
import { lookFor } from './sending.js';

const MOVES = 'rooms.moves', LOCK = 'rooms.move ';

export function readMoves() {
  try {
    const moves = JSON.parse(localStorage.getItem(MOVES));
    return Array.isArray(moves) ? moves.filter(move => move && move.old && move.wish && move.key) : [];
  } catch {
    return [];
  }
}

function write(moves) {
  try { localStorage.setItem(MOVES, JSON.stringify(moves)); } catch { /* then it lasts as long as this page */ }
}

/** Keeps a move as it is by now: `old` is what stands, `wish` what is asked for, with `alternatives` or none, `id` the new request where it is known. */
export function keepMove(move) {
  write([...readMoves().filter(each => each.key !== move.key), move]);
}

export function dropMove(move) {
  write(readMoves().filter(each => each.key !== move.key));
}

/** Does something while no other window of this browser is at this move; false where one is. */
export async function alone(move, act) {
  if (!navigator.locks) return act();
  return navigator.locks.request(LOCK + move.key, { ifAvailable: true }, lock => lock ? act() : false);
}

/** What the office has of a move: the outcome of the old request, and that of the new one or null. */
export async function lookAtMove({ old, wish, alternatives, id }) {
  const was = await askOutcome(old.room, old.id);
  const is = id ? await askOutcome(wish.room, id) : await lookFor({ ...wish, alternatives }, other => other !== old.id);
  return { was, is };
}

/** By both, what stands: `both`, `old`, `new` or `none`; `waiting` if the new request has no room, and may still get one. */
export function standingOf({ was, is }) {
  const hasOld = Boolean(was) && was.state === 'booked', hasNew = Boolean(is) && is.state === 'booked';
  return { stands: hasOld && hasNew ? 'both' : hasOld ? 'old' : hasNew ? 'new' : 'none', waiting: Boolean(is) && is.state === 'logged' && is.mark === 'T' };
}

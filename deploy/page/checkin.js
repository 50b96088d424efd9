// Checking in at a door, and the release of what nobody checked in to. A tablet that can't be pressed, since it was off or without a
// connection, releases nothing: only minutes in which somebody could have checked in are counted.
import { askHere } from './tablet.js';

/** So many minutes before its start a booking may be checked in to, if the room is free. */
const EARLY = 15, MINUTE = 60000;

let here = null;         // the ids that were checked in to, or null where that isn't known
let openSince = null;    // since when this display could be pressed without a break

/** Reads who checked in, in a round of asking that went well so far. */
export async function readHere(room) {
  here = await askHere(room);
  openSince = here ? openSince || Date.now() : null;
}

/** A round didn't go well: nobody may have been able to check in. */
export function forgetHere() { here = openSince = null; }

export const isKnown = () => here !== null;
export const isHere = id => here !== null && here.has(id);
export function addHere(id) { if (here) here.add(id); }

/** The booking that may be checked in to at this minute: the one under way, or one that begins soon. */
export function toCheckIn(rows, minute) {
  const row = rows.find(each => each.start <= minute && minute < each.stop) ||
    rows.find(each => each.start > minute && each.start - minute <= EARLY);
  return row && isKnown() && !isHere(row.id) ? row : null;
}

/** The minute at which the booking under way goes if nobody checks in; null where none does. */
export function releaseOf(rows, minute, release) {
  const row = rows.find(each => each.start <= minute && minute < each.stop);
  if (!row || !release || !isKnown() || isHere(row.id)) return null;
  const open = minute - Math.floor((Date.now() - openSince) / MINUTE);
  return { row, at: Math.max(row.start, open) + release };
}

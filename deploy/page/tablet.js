// What a tablet at a door may ask of the office, by a password of its own: to book its room from now on, to take back a request of that room,
// and to mark one as checked in. The proxy writes the program's request from the path; nothing else can be asked this way.
import { Fault, ask, askFile, fetched, office } from './office.js';
import { say } from './words.js';

export const LENGTHS = [15, 30, 60];

/** What rooms.json says of the door of this room: `release` is after how many minutes a booking goes that nobody checked in to, 0 for never. */
export function doorOf(room) {
  const own = office.rooms.find(each => each.name === room), says = own && own.door !== undefined ? own.door : office.door;
  if (!says || typeof says !== 'object') return null;
  return { release: Number.isInteger(says.release) && says.release > 0 && says.release < 1440 ? says.release : 0 };
}

export const askBook = (room, day, time, length) => ask('/door/' + room + '/book/' + day + '/' + time + '/' + length, '');
export const askCancel = (room, id) => ask('/door/' + room + '/cancel/' + id, '');

/** Marks that somebody has checked in. It may be marked again. */
export async function markHere(room, id) {
  const { status } = await fetched('/door/' + room + '/here/' + id, '', 'PUT');
  if (status === 401 || status === 403) throw new Fault(false, say('fault.password'));
  if (status !== 201 && status !== 204) throw new Fault(true, say('fault.status', { status }));
}

/** The ids of the requests of this room that somebody has checked in to; null where nobody can say. */
export async function askHere(room) {
  const marks = await askFile('/here/');
  if (!Array.isArray(marks)) return null;
  const start = room + '.';
  return new Set(marks.map(mark => String(mark.name)).filter(name => name.startsWith(start)).map(name => name.slice(start.length)));
}

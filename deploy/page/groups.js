// Groups: requests that were asked for together, kept at the office as a file each, so that every desk can look at them and cancel them as
// one. A group is named by its last day and some letters, by which the office's service knows when to take it away.
import { Fault, askFile, putText } from './office.js';
import { isDay } from './texts.js';

const NAME = /^(\d{4}-\d\d-\d\d)\.[a-z0-9]{8}$/, ID = /^[1-9][0-9]?-[1-9][0-9]{0,8}$/, ROOM = /^[a-z0-9-]{1,16}$/;
/** What a request of a group became when it was asked for, or with the group. */
const STATES = ['booked', 'none', 'perhaps', 'cancelled'];
const kept = new Map();   // what was read, by name

export const groups = { isThere: true, list: [] };

export function nameOfGroup(items) {
  const letters = [...crypto.getRandomValues(new Uint8Array(8))].map(number => (number % 36).toString(36)).join('');
  return items.map(item => item.day).filter(isDay).sort().at(-1) + '.' + letters;
}

/** What a file says, as far as it is a group: another desk wrote it. */
function groupOf(name, read) {
  if (!read || !Array.isArray(read.items)) return null;
  const text = value => typeof value === 'string' ? value : '';
  const items = read.items.filter(item => item && ROOM.test(item.room) && isDay(text(item.day)) && /^\d\d:\d\d$/.test(item.start) && Number.isInteger(item.length))
    .map(item => ({ room: item.room, day: item.day, start: item.start, length: item.length, title: text(item.title), key: text(item.key),
      id: ID.test(item.id) ? item.id : '', state: STATES.includes(item.state) ? item.state : 'perhaps' }));
  return { name, title: text(read.title), made: text(read.made), items };
}

/** Reads the groups of the office, those alone whose files changed. */
export async function askGroups() {
  const files = await askFile('/groups/');
  groups.isThere = Array.isArray(files);
  if (!groups.isThere) return;
  const names = files.filter(file => NAME.test(file.name)).map(file => ({ name: file.name, state: file.mtime + ' ' + file.size }));
  for (const { name, state } of names) {
    if (kept.get(name)?.state !== state) kept.set(name, { state, group: groupOf(name, await askFile('/groups/' + name)) });
  }
  groups.list = names.map(({ name }) => kept.get(name).group).filter(group => group).sort((one, other) => one.name < other.name ? -1 : 1);
}

/** Keeps a group at the office; gives words where that couldn't be done. */
export async function keepGroup({ name, title, made, items }) {
  const asked = items.filter(item => STATES.includes(item.state)).map(({ room, day, start, length, title: words, key, id, state }) =>
    ({ room, day, start, length, title: words, ...key ? { key } : {}, ...id ? { id } : {}, state }));
  if (!asked.length) return '';
  try {
    await putText('/groups/put/' + name, JSON.stringify({ title, made, items: asked }));
    return '';
  } catch (fault) {
    if (!(fault instanceof Fault)) throw fault;
    return fault.message;
  }
}

/** A request took the place of another one, in the group that this was of, too. Gives words where that couldn't be kept. */
export async function replaceInGroups(old, next) {
  await askGroups();
  const isIt = item => item.room === old.room && item.id === old.id, group = groups.list.find(each => each.items.some(isIt));
  if (!group) return '';
  const place = group.items.findIndex(isIt);
  group.items[place] = { ...group.items[place], ...next, state: 'booked' };
  return keepGroup(group);
}

/** What a request is known by if its file names no key: all that it asks for. */
export const contentOf = ({ room, day, start, length, title }) => [room, day, start, length, title].join(' ');

/** The requests that were asked for already, by their keys. */
export function askedKeys() {
  const keys = new Map();
  for (const group of groups.list) for (const item of group.items) if (item.id && item.state !== 'cancelled') keys.set(item.key || contentOf(item), item);
  return keys;
}

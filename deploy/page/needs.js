// What is needed of a room, as the view of free rooms asks for it: seats and equipment, which rooms.json names.
import { byId, el, renew } from './texts.js';
import { office } from './office.js';
import { say } from './words.js';

export const seatsOf = room => Number.isInteger(room.seats) && room.seats > 0 ? room.seats : 0;
const hasOf = room => Array.isArray(room.has) ? room.has.filter(thing => typeof thing === 'string') : [];
const boxes = () => [...byId('find-has').querySelectorAll('input')];

/** The fields for what the rooms of this office have. */
export function showNeeds() {
  const things = [...new Set(office.rooms.flatMap(hasOf))].sort();
  byId('find-seats').parentElement.hidden = !office.rooms.some(seatsOf);
  byId('find-has').hidden = !things.length;
  renew(byId('find-has'), ...things.map(thing => el('label', {}, el('input', { type: 'checkbox', value: thing }), ' ' + thing)));
}

/** The rooms that have what is needed, in the order of rooms.json. */
export function roomsThatFit() {
  const seats = Number(byId('find-seats').value) || 0, things = boxes().filter(box => box.checked).map(box => box.value);
  return office.rooms.filter(room => seatsOf(room) >= seats && things.every(thing => hasOf(room).includes(thing)));
}

/** What a room has, in words. */
export const hasWords = room => [seatsOf(room) ? say('needs.seats', { count: seatsOf(room) }) : '', ...hasOf(room)].filter(word => word).join(', ');

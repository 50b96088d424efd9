// Rooms that this page doesn't show: another office has them on its page, or they came with its bookings. The office's service writes them into
// status.json. Whoever reads it may take a line away, in this browser, until there is another room.
import { el, buttonOf, renew } from './texts.js';
import { say } from './words.js';

const KEY = 'rooms.elsewhere';
let hidden = '';

function readHidden() {
  try { return localStorage.getItem(KEY) || hidden; } catch { return hidden; }
}

function hide(names, place, status) {
  hidden = names;
  try { localStorage.setItem(KEY, names); } catch { /* then it lasts as long as this page */ }
  showElsewhere(place, status);
}

const nameOf = ({ label, office }) => office ? say('elsewhere.room', { label, office }) : label;
const listOf = rooms => rooms.map(nameOf).join('; ');

/** The rooms in words: what may be done here with those that came by an exchange, and with those that no exchange brought yet. */
function wordsOf(rooms) {
  const known = rooms.filter(each => each.known), unknown = rooms.filter(each => !each.known);
  return [known.length ? say('elsewhere.known', { rooms: listOf(known) }) : '',
    unknown.length ? say('elsewhere.unknown', { count: unknown.length, rooms: listOf(unknown) }) : '',
    say('elsewhere.add')].filter(words => words).join(' ');
}

export function showElsewhere(place, status) {
  const rooms = status && Array.isArray(status.elsewhere) ? status.elsewhere : [], names = rooms.map(each => each.room + (each.known ? '' : '?')).join(' ');
  place.hidden = !rooms.length || names === readHidden();
  renew(place, ...(place.hidden ? [] : [document.createTextNode(wordsOf(rooms) + ' '), buttonOf(say('elsewhere.hide'), () => hide(names, place, status))]));
}

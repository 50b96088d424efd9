// The sheets that this browser has read, kept in it, for when the page is opened anew while the office gives no reply.
const PREFIX = 'rooms.sheet.', MOST = 300;

/** An empty text is that of a room that the office doesn't know. */
export function keepSheet(room, day, text, at) {
  try { localStorage.setItem(PREFIX + room + ' ' + day, JSON.stringify({ text, at: at.getTime() })); } catch { /* then it lasts as long as this page */ }
}

/** The text of a sheet that was kept, and when it was read. */
export function keptSheet(room, day) {
  try {
    const { text, at } = JSON.parse(localStorage.getItem(PREFIX + room + ' ' + day));
    return typeof text === 'string' && Number.isFinite(at) ? { text, at: new Date(at) } : null;
  } catch {
    return null;
  }
}

/** The rooms and days of all sheets that are kept. */
export function keptNames() {
  try { return Object.keys(localStorage).filter(name => name.startsWith(PREFIX)).map(name => name.slice(PREFIX.length)); } catch { return []; }
}

/** Keeps those alone that were read last. */
export function dropOldSheets() {
  try {
    const atOf = name => (JSON.parse(localStorage.getItem(name)) || {}).at || 0;
    const names = Object.keys(localStorage).filter(name => name.startsWith(PREFIX));
    for (const name of names.sort((one, other) => atOf(other) - atOf(one)).slice(MOST)) localStorage.removeItem(name);
  } catch { /* nothing is kept, or nothing that can be read */ }
}

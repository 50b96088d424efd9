// What a run of many requests has done, kept in this browser while it lasts, so that nothing is lost or asked twice if the tab is closed: the
// whole run at its beginning and then now and again, and in between the few results since then with the request that is under way.
const RUN = 'rooms.many', NOW = 'rooms.many.now', LOCK = 'rooms.many';
let since = { sending: -1, results: [] };

const read = name => { try { return JSON.parse(localStorage.getItem(name)); } catch { return null; } };
/** Whether there was room for it; else it lasts as long as this page. */
function write(name, value) {
  try { localStorage.setItem(name, JSON.stringify(value)); return true; } catch { return false; }
}

/** Keeps the run as it is; where there is no room for all of it, what came since stays beside what was kept before. */
export function keepRun({ name, title, made, items }) {
  if (write(RUN, { name, title, made, items })) since = { sending: -1, results: [] };
  write(NOW, since);
}

export function isSending(place) {
  since.sending = place;
  write(NOW, since);
}

export function isDone(place, { state, id, words }) {
  since.sending = -1;
  since.results.push({ place, state, id, words });
  write(NOW, since);
}

export function dropRun() {
  for (const name of [RUN, NOW]) try { localStorage.removeItem(name); } catch { /* nothing was kept */ }
}

/** A run that wasn't ended, as it was last; `sending` is the place of the request that was under way, or -1. */
export function readRun() {
  const run = read(RUN), later = read(NOW) || { sending: -1, results: [] };
  if (!run || !Array.isArray(run.items)) return null;
  for (const { place, ...result } of later.results) Object.assign(run.items[place] || {}, result);
  return { ...run, sending: later.sending };
}

/** Does something while no other tab of this browser runs; false where one does. */
export async function alone(act) {
  if (!navigator.locks) return act();
  return navigator.locks.request(LOCK, { ifAvailable: true }, lock => lock ? act() : false);
}

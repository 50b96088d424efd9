// Runs beside the page: each of its files comes from the office, and from what was kept of it where the office can't be reached. Replies about
// rooms, requests and their outcomes go by, and are never kept here.
const KEPT = 'rooms-page', PAGES = ['/', '/door.html'], FILE = /^\/([a-z]+\.(html|css|js)|words\/[a-z]+\.js|rooms\.json)?$/;

const keptAs = address => new URL(address, location.origin).pathname;

/** The files that a file names: modules that it imports, and what a page is made of. */
function namedIn(text) {
  const names = [...text.matchAll(/(?:from|import) '\.\/((?:words\/)?[a-z]+\.js)'|(?:src|href)="([a-z]+\.(?:js|css))"/g)];
  return names.map(([, module, part]) => '/' + (module || part));
}

/** Keeps a file, and all that it names. */
async function keepAll(first) {
  const kept = await caches.open(KEPT), seen = new Set(first), left = [...first];
  while (left.length) {
    const path = left.pop(), reply = await fetch(path, { cache: 'no-store' });
    if (!reply.ok) throw new Error(path + ': ' + reply.status);
    await kept.put(path, reply.clone());
    for (const name of path.endsWith('.css') || path.endsWith('.json') ? [] : namedIn(await reply.text())) {
      if (!seen.has(name)) left.push(name);
      seen.add(name);
    }
  }
}

async function fileOf(request) {
  const path = keptAs(request.url), kept = await caches.open(KEPT);
  let reply;
  try {
    reply = await fetch(request);
  } catch (fault) {
    const old = await kept.match(path);
    if (old) return old;
    throw fault;
  }
  if (reply.ok && !reply.redirected) await kept.put(path, reply.clone());
  return reply;
}

self.addEventListener('install', event => event.waitUntil(keepAll([...PAGES, '/rooms.json']).then(() => self.skipWaiting())));
self.addEventListener('activate', event => event.waitUntil(self.clients.claim()));
self.addEventListener('fetch', event => {
  const { request } = event, url = new URL(request.url);
  if (request.method === 'GET' && url.origin === location.origin && FILE.test(url.pathname)) event.respondWith(fileOf(request));
});

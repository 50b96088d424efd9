// The files of the page are kept by the browser, so that it opens without a connection too; what it shows then is marked as old by the page itself.

/** Has the browser run worker.js beside the page, where it can: a page of a certificate that it doesn't trust has none. */
export function keepFiles() {
  if (!navigator.serviceWorker) return;
  const words = { createScriptURL: () => '/worker.js' };
  const address = window.trustedTypes ? window.trustedTypes.createPolicy('worker', words).createScriptURL('') : words.createScriptURL('');
  navigator.serviceWorker.register(address).catch(() => { /* then the page opens with a connection alone */ });
}

// The page without a network, once it was opened: its files, as they were when this version was made, are kept by the browser. Each is looked at by its
// digest first, so that those of two versions are never kept together.
importScripts('files.js');

/* global FILES, VERSION */
// another version of the page may lie on the same server, and keeps its own
const { scope } = self.registration;
const OURS = `gbkeep ${scope} `;
const CACHE = `${OURS}${VERSION}`;
const LIST = new URL('files.js', scope).href;

/** @param {ArrayBuffer} bytes */
async function sha256(bytes) {
  const digest = new Uint8Array(await crypto.subtle.digest('SHA-256', bytes));
  return [...digest].map((byte) => byte.toString(16).padStart(2, '0')).join('');
}

/** A file of this version, from the network.
 * @param {[string, string]} file
 * @returns {Promise<[string, Response]>} */
async function fetched([name, digest]) {
  const answer = await fetch(new Request(name, { cache: 'reload' }));
  if (!answer.ok || await sha256(await answer.clone().arrayBuffer()) !== digest) {
    throw new Error(`${name} is not of version ${VERSION}`);
  }
  return [name, answer];
}

/** Keeps all files of this version, or none. */
async function keep() {
  const answers = await Promise.all(Object.entries(FILES).map(fetched));
  const cache = await caches.open(CACHE);
  await Promise.all(answers.map(([name, answer]) => cache.put(name, answer)));
}

/** Whether files are of another version of this page. There are versions whose name says nothing of the place: what they keep does.
 * @param {string} name */
async function isPast(name) {
  return name.startsWith(OURS) ? name !== CACHE : name.startsWith('gbkeep-') && await (await caches.open(name)).match(scope) !== undefined;
}

async function forgetPast() {
  for (const name of await caches.keys()) {
    if (await isPast(name)) {
      await caches.delete(name);
    }
  }
}

/** @param {Request} request */
async function answered(request) {
  if (request.url.split('?')[0] === LIST) {
    return new Response(`const VERSION = ${JSON.stringify(VERSION)};\nconst FILES = ${JSON.stringify(FILES)};\n`, { headers: { 'Content-Type': 'text/javascript' } });
  }
  const cache = await caches.open(CACHE);
  return await cache.match(request, { ignoreSearch: true }) ?? fetch(request);
}

self.addEventListener('install', (event) => event.waitUntil(keep()));

self.addEventListener('activate', (event) => event.waitUntil(forgetPast().then(() => self.clients.claim())));

self.addEventListener('fetch', (event) => {
  const { method, url, cache } = event.request;
  // who wants the network's has it
  if (method === 'GET' && cache !== 'reload' && new URL(url).origin === location.origin) {
    event.respondWith(answered(event.request));
  }
});

// Whether the files of this page are of one version: files.js, which scripts/page.py makes, has the SHA-256 of each.
import { sha256 } from './digest.js';

// this tab was loaded anew, and is to say so
const ANEW = 'gbkeep.anew';
const MIXED = 'This page was put together of two versions';
// the page does not wait longer for a server, in milliseconds
const PATIENCE = 5000;

/** After so many milliseconds. (Debian's tsc does not know this call.)
 * @type {(patience: number) => AbortSignal} */
const late = (patience) => /** @type {any} */ (AbortSignal).timeout(patience);

/** Those whose bytes are not what files.js says; `cache` says whether the browser may answer with what it has.
 * @param {RequestCache} cache
 * @returns {Promise<string[]>} */
async function strangers(cache) {
  const signal = late(PATIENCE);
  const list = await (await fetch('files.js', { cache, signal })).text();
  /** @type {Record<string, string>} */
  const files = JSON.parse(/^const FILES = (\{.*\});$/m.exec(list)?.[1] ?? '');
  const looked = await Promise.all(Object.entries(files).map(async ([name, digest]) => {
    const answer = await fetch(name, { cache, signal });
    return answer.ok && await sha256(await answer.arrayBuffer()) === digest ? [] : [name];
  }));
  return looked.flat();
}

/** Has the browser forget what it keeps of this page for a time without a network. The games stay. */
async function forget() {
  const registration = await navigator.serviceWorker?.getRegistration();
  await registration?.unregister();
  const scope = new URL('./', location.href).href;
  for (const name of await caches.keys()) {
    if (name.startsWith(`gbkeep ${scope} `) || (name.startsWith('gbkeep-') && await (await caches.open(name)).match(scope))) {
      await caches.delete(name);
    }
  }
}

function remembered() {
  const was = sessionStorage.getItem(ANEW);
  sessionStorage.removeItem(ANEW);
  return was !== null;
}

/** Looks at the files of this page, and loads it from the network where they are of two versions. Answers what the player is to be told, or null. */
export async function look() {
  if (!isSecureContext) {
    return null;
  }
  let mixed;
  let wasLoaded;
  try {
    wasLoaded = remembered();
    mixed = await strangers('default');
  } catch {
    return null;
  }
  if (mixed.length === 0) {
    return wasLoaded ? `${MIXED}: it was loaded from the network anew. The games are as they were.` : null;
  }
  try {
    // no version keeps this one
    await fetch('service_worker.js', { cache: 'reload' });
    await forget();
    mixed = await strangers('reload');
  } catch {
    return `${MIXED} (${mixed.join(', ')}), and there is no network to load it from: open it anew once there is one.`;
  }
  if (mixed.length > 0 || wasLoaded) {
    return `${MIXED}, and the server has it so${mixed.length > 0 ? ` (${mixed.join(', ')})` : ''}: open it anew later. What is saved stays saved.`;
  }
  sessionStorage.setItem(ANEW, '1');
  location.reload();
  return new Promise(() => {});
}

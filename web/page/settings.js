// What this browser remembers of the page beside the games: choices, which may be lost.

/** @param {string} name */
export function remembered(name) {
  try {
    return localStorage.getItem(`gbkeep.${name}`);
  } catch {
    return null;
  }
}

/**
 * @param {string} name
 * @param {string | number} value
 */
export function remember(name, value) {
  try {
    localStorage.setItem(`gbkeep.${name}`, String(value));
  } catch {
    // it is asked again the next time
  }
}

const OPEN = 'gbkeep.open';

/** The game that this tab had open when it was loaded anew or killed; null where there is none. */
export function openBefore() {
  try {
    return sessionStorage.getItem(OPEN);
  } catch {
    return null;
  }
}

/** @param {string | null} id of the game that is open in this tab; null where none is */
export function noteOpen(id) {
  try {
    if (id === null) {
      sessionStorage.removeItem(OPEN);
    } else {
      sessionStorage.setItem(OPEN, id);
    }
  } catch {
    // the list has it
  }
}

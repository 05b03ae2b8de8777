// What the visitor takes out.

/**
 * Leaves bytes or a blob as a file of the visitor's.
 * @param {Uint8Array | Blob} content
 * @param {string} name
 */
export function leave(content, name) {
  const blob = content instanceof Blob ? content : new Blob([content], { type: 'application/octet-stream' });
  const url = URL.createObjectURL(blob);
  const link = Object.assign(document.createElement('a'), { href: url, download: name });
  link.click();
  setTimeout(() => URL.revokeObjectURL(url), 60000);
}

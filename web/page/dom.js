// Elements of the page, found and made.

/**
 * The element of this id.
 * @template {HTMLElement} [K=HTMLElement]
 * @param {string} id
 * @param {new () => K} [kind]
 * @returns {K}
 */
export function $(id, kind) {
  const found = document.getElementById(id);
  if (!(found instanceof (kind ?? HTMLElement))) {
    throw new TypeError(`there is no ${id}`);
  }
  return /** @type {K} */ (found);
}

/**
 * A new element with these attributes and what stands in it. An attribute that is null or false is left out.
 * @template {keyof HTMLElementTagNameMap} K
 * @param {K} kind
 * @param {Record<string, string | number | boolean | null>} [attributes]
 * @param {(Node | string)[]} inside
 * @returns {HTMLElementTagNameMap[K]}
 */
export function made(kind, attributes = {}, ...inside) {
  const element = document.createElement(kind);
  for (const [name, value] of Object.entries(attributes)) {
    if (value !== null && value !== false) {
      element.setAttribute(name, value === true ? '' : String(value));
    }
  }
  element.append(...inside);
  return element;
}

const SVG = 'http://www.w3.org/2000/svg';

/**
 * A symbol of the sprite in index.html.
 * @param {string} name
 */
export function icon(name) {
  const svg = document.createElementNS(SVG, 'svg');
  svg.setAttribute('aria-hidden', 'true');
  svg.append(document.createElementNS(SVG, 'use'));
  setIcon(svg, name);
  return svg;
}

/**
 * @param {Element} where an element with a symbol, or the symbol
 * @param {string} name
 */
export function setIcon(where, name) {
  where.querySelector('use')?.setAttribute('href', `#i-${name}`);
}

/**
 * A button with a symbol and words.
 * @param {string | null} symbol
 * @param {string} text
 * @param {() => unknown} run
 * @param {Record<string, string>} [more]
 */
export function button(symbol, text, run, more = {}) {
  const one = made('button', { type: 'button', ...more }, ...(symbol ? [icon(symbol)] : []), made('span', {}, text));
  one.addEventListener('click', run);
  return one;
}

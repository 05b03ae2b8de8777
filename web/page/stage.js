// A game that is open, as it is seen: the picture, the bar and the touch buttons, each at its place.
import { $, setIcon } from './dom.js';
import { nameOfKey } from './keys.js';
import { layoutOf } from './layout.js';
import { draw } from './picture.js';
import { isStill, standing } from './state.js';
import { standingLine } from './words.js';

const FRAMES_A_SECOND = 4194304 / 70224;
// how long the bar stays in full screen, in milliseconds
const BAR_STAYS = 2500;
const TOUCHED = ['pad', 'letters', 'minor-left', 'minor-right'];

function insets() {
  const style = getComputedStyle($('insets'));
  const [top, right, bottom, left] = [style.paddingTop, style.paddingRight, style.paddingBottom, style.paddingLeft].map(parseFloat);
  return { top: top ?? 0, right: right ?? 0, bottom: bottom ?? 0, left: left ?? 0 };
}

/**
 * @param {string} id
 * @param {Box | null} box
 */
function put(id, box) {
  const element = $(id);
  element.hidden = box === null;
  if (box !== null) {
    Object.assign(element.style, { left: `${box.x}px`, top: `${box.y}px`, width: `${box.width}px`, height: `${box.height}px` });
  }
}

export class Stage {
  #store;
  /** @type {Uint8Array | null} */
  #last = null;
  #barUntil = 0;
  /** a mouse rests where it is; a finger that was lifted rests nowhere */
  #isMouse = true;

  /** @param {Store} store */
  constructor(store) {
    this.#store = store;
    addEventListener('resize', () => this.place());
    document.addEventListener('fullscreenchange', () => {
      store.change({ isFull: document.fullscreenElement !== null });
      this.showBar();
    });
    for (const kind of ['pointermove', 'pointerdown', 'focusin']) {
      $('game').addEventListener(kind, (event) => {
        if (event instanceof PointerEvent) {
          this.#isMouse = event.pointerType === 'mouse';
        }
        // a thumb on the pad plays, and wants no bar
        if (!(event.target instanceof Element && TOUCHED.some((id) => $(id).contains(/** @type {Element} */ (event.target))))) {
          this.showBar();
        }
      });
    }
    setInterval(() => this.#hideBar(), 250);
    store.view(['view', 'isTouch', 'isFull'], () => this.place());
    store.view(['isBarShown', 'isFull'], ({ isBarShown, isFull }) => {
      $('game').classList.toggle('bare', isFull && !isBarShown);
      $('full').setAttribute('aria-pressed', String(isFull));
      $('full').setAttribute('aria-label', isFull ? 'Leave full screen' : 'Full screen');
      setIcon($('full'), isFull ? 'small' : 'full');
    });
    store.view(['palette'], () => this.#redraw());
    store.view(['game'], ({ game }) => {
      $('title').textContent = game?.title ?? $('title').textContent;
      $('title').title = game?.name ?? '';
      for (const id of ['pause', 'fast', 'rewind']) {
        $(id, HTMLButtonElement).disabled = game === null;
      }
    });
    store.view(['isPaused', 'isWaiting', 'runsFast', 'isFast', 'game'], (state) => {
      $('pause').setAttribute('aria-pressed', String(state.isPaused));
      $('pause').setAttribute('aria-label', state.isPaused || state.isWaiting ? 'Go on' : 'Pause');
      setIcon($('pause'), state.isPaused || state.isWaiting ? 'play' : 'pause');
      for (const id of ['fast', 'touch-fast']) {
        $(id).setAttribute('aria-pressed', String(state.isFast));
        $(id).classList.toggle('on', state.isFast || state.runsFast);
      }
      $('game').classList.toggle('still', isStill(state) || state.game === null);
    });
    store.view(['view', 'game'], ({ view, game }) => {
      document.title = view === 'game' && game ? `${game.title}: gbkeep` : 'gbkeep';
      document.documentElement.dataset.view = view;
      for (const meta of document.querySelectorAll('meta[name=theme-color]')) {
        const home = meta.getAttribute('media')?.includes('dark') ? '#11160e' : '#f5f7f0';
        meta.setAttribute('content', view === 'game' ? '#0b0e09' : home);
      }
      $('games').hidden = view !== 'home';
      $('game').hidden = view !== 'game';
    });
    store.view(['game', 'isOpening', 'isRefused', 'isPaused', 'isWaiting', 'holds', 'said'], (state) => {
      const status = $('status');
      status.dataset.state = standing(state);
      if ((state.said?.text ?? '') !== status.textContent || status.dataset.number !== String(state.said?.number ?? 0)) {
        status.dataset.number = String(state.said?.number ?? 0);
        // the same words once more are news, too
        status.textContent = '';
        status.textContent = state.said?.text ?? '';
      }
    });
    store.view(['isPaused', 'isWaiting', 'rewound', 'keeps', 'isTouch', 'game'], () => this.line());
    setInterval(() => this.line(), 500);
  }

  /** The line under the title. */
  line() {
    const state = this.#store.now;
    if (state.view !== 'game' || state.game === null) {
      return;
    }
    const { text, kind } = standingLine({
      keeps: state.game.isKept ? state.keeps : 'memory', isPaused: state.isPaused, isWaiting: state.isWaiting, isTouch: state.isTouch,
      isAllSaved: state.count === state.saved, unsaved: state.unsavedSince === 0 ? 0 : (performance.now() - state.unsavedSince) / 1000,
      rewound: state.rewound === null ? null : state.rewound / FRAMES_A_SECOND, pauseKey: nameOfKey(state.keys.Pause ?? '', state.printed),
    });
    const line = $('saved');
    line.dataset.kind = kind;
    const words = line.querySelector('span');
    if (words && words.textContent !== text) {
      words.textContent = text;
    }
    setIcon(line, kind === 'loud' ? 'warn' : 'tick');
  }

  /** @param {Uint8Array} shades */
  picture(shades) {
    this.#last = shades;
    this.#redraw();
  }

  #redraw() {
    if (this.#last) {
      draw($('screen', HTMLCanvasElement), this.#last, this.#store.now.palette);
    }
  }

  /** Puts everything where it belongs in this view. */
  place() {
    const { view, isTouch } = this.#store.now;
    if (view !== 'game') {
      $('toasts').style.top = '';
      $('toasts').classList.remove('placed');
      return;
    }
    const layout = layoutOf({ width: innerWidth, height: innerHeight, ratio: devicePixelRatio || 1, insets: insets(), isTouch });
    const game = $('game');
    game.dataset.layout = layout.kind;
    game.classList.toggle('touched', isTouch);
    const boxes = /** @type {[string, Box | null][]} */ ([
      ['screen', layout.picture], ['bar-title', layout.title], ['bar-tools', layout.tools], ['pad', layout.pad],
      ['letters', layout.letters], ['minor-left', layout.left], ['minor-right', layout.right],
    ]);
    boxes.forEach(([id, box]) => put(id, box));
    $('toasts').style.top = layout.messages === null ? '' : `${layout.messages.y}px`;
    $('toasts').classList.toggle('placed', layout.messages !== null);
  }

  showBar() {
    this.#barUntil = performance.now() + BAR_STAYS;
    this.#store.change({ isBarShown: true });
  }

  #hideBar() {
    const isUsed = ['bar-title', 'bar-tools'].some((id) => $(id).matches(this.#isMouse ? ':focus-within, :hover' : ':focus-within'));
    if (performance.now() > this.#barUntil && !isUsed) {
      this.#store.change({ isBarShown: false });
    }
  }
}

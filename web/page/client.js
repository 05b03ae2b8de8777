// The worker, as the page asks it.
import { Refused } from './refusals.js';

// so long a file may take to be read or written before the player is told, in milliseconds
const LONG = 10000;
const LOOK = 1000;
// what may take long by itself: frames that were asked for, and what waits for the player
const SLOW = ['press'];

/**
 * @typedef {{ kept: (answer: any) => void, broken: (error: Error) => void, what: string, since: number }} Waiting
 * @typedef {Record<string, (data: any) => void>} Told
 */

export class Client {
  /** @type {Worker} */
  #worker;
  /** @type {Map<number, Waiting>} */
  #waiting = new Map();
  #calls = 0;
  #isLate = false;

  /**
   * @param {string} url
   * @param {Told} told what to do with what the worker tells, by its name
   */
  constructor(url, told) {
    this.#worker = new Worker(url, { type: 'module' });
    this.#worker.onmessage = ({ data }) => {
      if (data.tell) {
        told[data.tell]?.(data);
      } else {
        this.#answered(data);
      }
    };
    this.#worker.onerror = (event) => {
      event.preventDefault();
      const means = event.message || 'its worker does not run';
      const advice = 'open the page anew: what was saved stays saved';
      told.stopped?.({ refused: { line: 'the page failed', means, advice, kind: 'failed' } });
    };
  }

  /** @param {any} data */
  #answered({ call, answer, refused }) {
    const one = this.#waiting.get(call);
    this.#waiting.delete(call);
    if (refused) {
      one?.broken(new Refused(refused.line, refused.means, refused.advice, refused.kind));
    } else {
      one?.kept(answer);
    }
  }

  /**
   * Asks the worker, and waits for its answer.
   * @param {string} what
   * @param {object} [data]
   * @param {Transferable[]} [moved]
   * @returns {Promise<any>}
   */
  ask(what, data = {}, moved = []) {
    this.#calls += 1;
    const call = this.#calls;
    return new Promise((kept, broken) => {
      this.#waiting.set(call, { kept, broken, what, since: performance.now() });
      this.#worker.postMessage({ ask: what, data, call }, moved);
    });
  }

  /**
   * @param {string} what
   * @param {object} data
   */
  tell(what, data) {
    this.#worker.postMessage({ ask: what, data, call: 0 });
  }

  /**
   * Looks each second whether the worker answers: where it does not, a file of the browser's is read or written for ever.
   * @param {() => boolean} isAsking whether the worker waits for the player
   * @param {(isLate: boolean) => void} say
   */
  watch(isAsking, say) {
    setInterval(() => {
      const now = performance.now();
      const all = [...this.#waiting.values()];
      if (isAsking()) {
        all.forEach((one) => { one.since = now; });
      }
      const isLate = all.some((one) => !SLOW.includes(one.what) && now - one.since > LONG);
      if (isLate !== this.#isLate) {
        this.#isLate = isLate;
        say(isLate);
      }
      if (!all.some((one) => one.what === 'ping')) {
        this.ask('ping').catch(() => {});
      }
    }, LOOK);
  }
}

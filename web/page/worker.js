// Everything that plays: the library, the game that is open, and its files. The page asks by {ask, data, call}, and is answered by {call, answer} or
// {call, refused}. What nobody asked for is told by {tell}.
import { sha256 } from './digest.js';
import { refusalOf } from './disk.js';
import { gamesFolder, keepsFiles } from './folder.js';
import { Game } from './game.js';
import { batteryOf, deleteGame, deleteImage, imageOf, listGames, playImage, takeIn, tryCartridge, trySave } from './games.js';
import { isSave } from './images.js';
import { keepsNothing } from './keeping.js';
import { Library, MODULE } from './library.js';
import { look } from './look.js';
import { Player, tell } from './player.js';
import { Refused } from './refusals.js';

/** @type {Promise<WebAssembly.Module> | null} it is fetched once: a later answer may be of another version */
let compiled = null;
/** @type {Promise<Library> | null} */
let loading = null;

const player = new Player(() => {
  // the module may have failed with the game
  loading = null;
});

async function loaded() {
  compiled ??= Library.compiled(new URL(MODULE, import.meta.url));
  loading ??= compiled.then((module) => Library.of(module));
  try {
    return await loading;
  } catch (error) {
    compiled = null;
    loading = null;
    throw error;
  }
}

let questions = 0;
/** @type {Map<number, (said: boolean | null) => void>} */
const asked = new Map();

/**
 * Asks the player: true, false, or null for no answer.
 * @param {string} question
 * @param {string} yes
 * @param {string} no
 * @returns {Promise<boolean | null>}
 */
function ask(question, yes, no) {
  questions += 1;
  const number = questions;
  return new Promise((done) => {
    asked.set(number, done);
    tell('question', { question, number, yes, no });
  });
}

/** The slots of the game that is open. */
async function states() {
  return { states: await player.open.states(), canUndoLoad: player.open.canUndoLoad };
}

/**
 * Another game is played, or a part of its files is another: what the page is to show.
 * @param {(game: Game) => Promise<void>} run
 */
async function stayed(run) {
  await player.change(run);
  return { ...player.place, ...await states() };
}

/** @param {(game: Game) => Promise<void>} run */
async function went(run) {
  await player.change(run);
  player.changed();
  return { ...player.place, ...await states(), notice: player.open.notice };
}

/** The game went elsewhere by one input. */
function turned() {
  player.guarded(() => player.keepWhereDue());
  player.changed();
  return player.place;
}

/**
 * What the page may ask, by name.
 * @type {Record<string, (data: any, call: number) => any>}
 */
const answers = {
  /** Whether the worker runs at all. */
  ping() {},
  async load() {
    const looked = keepsFiles().then(async (isKept) => ({ keepsNothing: isKept && await keepsNothing().catch(() => false), isKept }));
    await loaded();
    await looked;
    await gamesFolder();
    return looked;
  },
  list: listGames,
  /** What files are. @param {{files: GivenFile[]}} data */
  look: async ({ files }) => look(await loaded(), files),
  /** Opens a game in place of the one that is open, which goes on where this one can't be opened. */
  async open({ id: named = null, rom = null, name = null, anew = false, battery = null, paused = false, max = false, test = false }) {
    const library = await loaded();
    const id = rom ? await sha256(rom) : named;
    // the game that is open gives way to one of its own cartridge before that one is opened
    const tried = rom ?? (player.game?.id === id ? player.game?.rom : null);
    if (tried) {
      tryCartridge(library, tried, battery);
    }
    if (player.game !== null) {
      player.keep();
      if (player.game?.id === id) {
        player.close();
      }
    }
    // a game that runs as fast as it goes would copy its states most of the time
    const next = await Game.open(library, { id, rom, name, isNew: anew, battery, isTimed: !test, hasPast: !max, ask });
    try {
      player.close();
    } catch (error) {
      next.drop();
      throw error;
    }
    player.begin(next, { paused, max });
    const { title, notice, welcome, canUndoLoad } = next;
    return { ...player.place, title, name: next.name, notice, welcome, canUndoLoad };
  },
  close: () => player.close(),
  tick: (data) => player.tick(data),
  pause({ paused }) {
    player.isPaused = paused;
    player.countAnew();
    if (paused) {
      player.keep();
    }
    return player.place;
  },
  /** Saves; `leaving` says that the page is left then. */
  save({ leaving = false }) {
    player.keep();
    if (leaving) {
      player.guarded((game) => game.leave());
    }
    return player.place;
  },
  press({ held, frames }, call) {
    if (player.open) {
      player.orders.push({ buttons: held, left: frames, call });
    }
  },
  state: () => player.guarded((game) => game.state()),
  picture: () => player.guarded((game) => game.picture()),
  image() {
    player.keep();
    return player.open.bytes();
  },
  battery: () => player.open.battery(),
  power() {
    player.open.power();
    return turned();
  },
  rewind({ states: count }) {
    const rewound = player.open.rewind(count);
    if (rewound === null) {
      throw Refused.own('oldest');
    }
    return { ...turned(), rewound };
  },
  states,
  keepState: ({ slot }) => stayed((game) => game.keepSlot(slot)),
  undoKeep: ({ slot }) => stayed((game) => game.undoKeep(slot)),
  deleteState: ({ slot }) => stayed((game) => game.deleteState(slot)),
  loadState: ({ slot }) => went((game) => game.loadSlot(slot)),
  undoLoad: () => went((game) => game.undoLoad()),
  timeline: () => player.open.moments(),
  async goToMoment({ number }) {
    const rewound = await player.open.goToMoment(number);
    return { ...turned(), rewound };
  },
  /** Takes a SAVE in as the image that is played from now on; where its game is open, that one is closed then. */
  async takeIn({ image }) {
    const id = await trySave(await loaded(), image);
    if (player.game?.id === id) {
      await player.change((game) => game.takeIn(image));
      player.close();
    } else {
      await takeIn(id, image);
    }
    return id;
  },
  isSave: ({ bytes }) => isSave(bytes),
  imageOf: ({ id, number }) => imageOf(id, number),
  batteryOf: async ({ id, number }) => batteryOf(await loaded(), id, number),
  playImage: ({ id, number }) => playImage(id, number),
  deleteImage: ({ id, number }) => deleteImage(id, number),
  deleteGame: ({ id }) => deleteGame(id),
  answered({ number, said }) {
    asked.get(number)?.(said);
    asked.delete(number);
  },
};

// What is asked is done one after another, and no frame is played meanwhile. A tick can be left out, and an answer is waited for.
const AT_ONCE = new Set(['ping', 'tick', 'answered', 'load']);
/** @type {Promise<void>} */
let last = Promise.resolve();

/** @param {{ask: string, data?: object, call: number}} asked */
async function answer({ ask: what, data, call }) {
  try {
    const got = await answers[what](data ?? {}, call);
    if (what !== 'press') {
      postMessage({ call, answer: got ?? null });
    }
  } catch (error) {
    postMessage({ call, refused: refusalOf(error).told() });
  }
}

/** @param {{ask: string, data?: object, call: number}} one */
async function alone(one) {
  player.isBusy = true;
  await answer(one);
  player.isBusy = false;
  player.pumps();
}

self.onmessage = ({ data }) => {
  if (AT_ONCE.has(data.ask)) {
    answer(data);
  } else {
    last = last.then(() => alone(data));
  }
};

// the module is fetched while the page begins; `load` tells where it fails
loaded().catch(() => {});

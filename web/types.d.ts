// The types that the page's scripts name. They stand here, and not in the folder that is served.

type Handle = FileSystemSyncAccessHandle;
type Folder = FileSystemDirectoryHandle;
type Game = import('./page/game.js').Game;
type GameIndex = import('./page/game_index.js').GameIndex;
type Library = import('./page/library.js').Library;
type Session = import('./page/library.js').Session;

// ---- the index of a game, and its images

/** What an index says. Images are told by their numbers. */
interface Said {
  /** The image that is played. */
  play: number;
  /** Of each slot its image, 0 where it is empty. */
  slots: number[];
  /** Of each slot what was in it before it was kept last: an image, 0 where it was empty, null where there is nothing to undo. */
  undo: (number | null)[];
  /** The image that was played before the last load, 0 where there is none. */
  back: number;
  /** The greatest number that an image was ever given. */
  last: number;
}

/** What a sector of an index says; `isWhole` tells whether it tells of each slot. */
interface SectorSaid {
  said: Said;
  isWhole: boolean;
}

/** What the bytes of an index say. */
interface IndexFound {
  /** Null where nothing is written. */
  said: Said | null;
  /** What the other sector says. */
  before: Said | null;
  /** The sector that counts. */
  place: number;
  /** The greatest number of a sector. */
  number: number;
  /** It is one sector of plain JSON. */
  isOld: boolean;
  /** There is a sector that is neither blank nor whole. */
  isDamaged: boolean;
}

/** What stands beside an image. */
interface About {
  /** A copy that was kept in a slot, one that was loaded from it to be played, or any other game. */
  kind: 'state' | 'load' | 'game';
  /** When that was, in milliseconds since 1970. */
  time: number;
  /** How many inputs it had then. */
  begun: bigint;
  /** How many it had when another one was played in its place; null where that is not known. */
  left: bigint | null;
  /** Its last picture, packed. */
  picture: Uint8Array | null;
}

// ---- the game that is open

/** Asks the player, with the verbs of both answers: true, false, or null for no answer. */
type AskPlayer = (question: string, yes: string, no: string) => Promise<boolean | null> | boolean | null;

/** How a game is opened. */
interface OpenHow {
  /** The SHA-256 of its cartridge. */
  id: string;
  /** Its cartridge, or null where that is here. */
  rom: Uint8Array | null;
  /** What the cartridge's file is called. */
  name: string | null;
  /** It is begun anew. */
  isNew: boolean;
  /** A battery file that it begins with. */
  battery: Uint8Array | null;
  /** Its clock is given the seconds that pass. */
  isTimed: boolean;
  /** It can be rewound. */
  hasPast: boolean;
  ask: AskPlayer;
}

/** A slot, as the page shows it. */
interface StateRow {
  /** From 1 on. */
  slot: number;
  /** When it was kept, in milliseconds since 1970; 0 where it is empty. */
  saved: number;
  /** How many inputs it has. */
  count: bigint;
  /** Its shades. */
  picture: Uint8Array | null;
  /** What was in it before can be brought back. */
  canUndo: boolean;
}

/** What is found in the text of a clock: how many lines; how far the date is, and so many seconds; where the image was played. */
interface ClockFound {
  lines: number;
  away: number;
  seconds: number;
  played: number;
}

/** Where the text of a clock stands. */
interface ClockText {
  read: () => string;
  write: (text: string) => void;
}

/** A state that a game can be rewound to. */
interface PastState {
  place: number;
  /** How many states before the newest it is. */
  steps: number;
  bytes: Uint8Array;
  /** Until when its clock had been given. */
  until: number;
}

/** How far a game was played. */
interface PlayedRecord {
  /** The image that was played. */
  image: number;
  /** How many inputs it had. */
  count: bigint;
  /** How many frames of this game were played in all, whatever image was played. */
  frames: number;
  /** When, in milliseconds since 1970. */
  time: number;
  /** Everything was saved, and nobody plays it. */
  isClosed: boolean;
}

/** What a game tells of a moment. */
interface MomentTold {
  /** The image that was played. */
  image: number;
  /** How many inputs it had. */
  count: bigint;
  /** How many frames of the game were played in all. */
  frames: number;
  /** Until when the clock of the cartridge was given, in seconds since 1970; 0 where there is none. */
  until: number;
  /** The game went elsewhere then. */
  isTurn: boolean;
}

/** A moment of a timeline, without its bytes. */
interface Moment extends MomentTold {
  /** Each has its own, and a later one a greater one. */
  number: number;
  /** Of the packed picture. */
  pictureLength: number;
  /** Of the packed state. */
  stateLength: number;
  /** Of picture and state. */
  digest: string;
  /** Where it lies. */
  sector: number;
}

// ---- how it is played

/** Frames that were asked for. */
interface Order {
  buttons: number;
  left: number;
  call: number;
}

/** Where the game stands, for the page. */
interface GamePlace {
  count: bigint;
  saved: bigint;
}

/** What the page tells at each of its moments. */
interface Tick {
  /** The buttons that are held. */
  held: number;
  /** How many times as fast the game runs; 0 is as fast as it goes. */
  speed: number;
  /** It is rewound. */
  isBack: boolean;
}

// ---- the list, and files

/** An image of a game, as the list shows it. */
interface ImageRow {
  number: number;
  /** When it was written last, in milliseconds since 1970. */
  saved: number;
  /** In bytes. */
  size: number;
  /** The slot that it is in, 0 where it is in none. */
  slot: number;
  /** It can be brought back to a slot, or it was played before the last load. */
  isUndo: boolean;
  /** How many inputs it has, where that is known. */
  count: bigint | null;
  /** Its shades. */
  picture: Uint8Array | null;
}

/** A game, as the list shows it. */
interface GameRow {
  /** The SHA-256 of its cartridge. */
  id: string;
  title: string;
  name: string;
  /** What it takes, in bytes. */
  size: number;
  /** When it was saved last, in milliseconds since 1970. */
  saved: number;
  /** When it was played last. */
  played: number;
  /** For how long it was played. */
  seconds: number;
  /** Another tab plays it. */
  isOpen: boolean;
  /** Some of it can't be read. */
  isUnread: boolean;
  /** There is a game, and not a cartridge alone. */
  isBegun: boolean;
  /** Its last picture: shades. */
  picture: Uint8Array | null;
  images: ImageRow[];
  /** The image that is played. */
  play: number;
  /** The image in the first slot. */
  slot: number;
}

/** A file that was chosen or dropped. */
interface GivenFile {
  name: string;
  bytes: Uint8Array;
}

/** What was found in files. */
interface Looked {
  cart: (GivenFile & { id: string; title: string; isKnown: boolean }) | null;
  battery: (GivenFile & { of: { id: string; title: string; name: string } | null }) | null;
  save: (GivenFile & { id: string | null; title: string }) | null;
  refused: { name: string; line: string; means: string; advice: string; kind: string }[];
}

/** A file of a zip. */
interface ZipEntry {
  /** Without its folders. */
  name: string;
  flags: number;
  method: number;
  sum: number;
  /** Its length in the zip. */
  packed: number;
  length: number;
  /** Where it begins. */
  at: number;
}

// ---- the view

type Page = import('./page/page.js').Page;
type PageState = import('./page/state.js').PageState;
type Store = import('./page/state.js').Store;

/** The game that is open, as the page shows it. */
interface OpenGame {
  title: string;
  name: string;
  /** It is kept beyond this window. */
  isKept: boolean;
}

/** What was said last. */
interface SaidLine {
  text: string;
  kind: 'said' | 'refused';
  /** The next one has another, also where its words are the same. */
  number: number;
}

/** What a game is opened with. */
interface OpenWhat {
  id?: string | null;
  rom?: Uint8Array | null;
  name?: string | null;
  anew?: boolean;
  battery?: Uint8Array | null;
}

/** What to do with files that were given: where there are words, once the player agrees. */
interface Plan {
  what: 'play' | 'begin' | 'battery of the list' | 'which game' | 'take in' | 'take in behind' | 'no cartridge' | 'nothing';
  text: string;
  more: string;
  yes: string;
}

/** What the line under the title is made of. */
interface Standing {
  keeps: string | null;
  isPaused: boolean;
  isWaiting: boolean;
  isTouch: boolean;
  isAllSaved: boolean;
  /** For how many seconds something is not saved. */
  unsaved: number;
  /** By how many seconds it is being rewound, or null. */
  rewound: number | null;
  pauseKey: string;
}

/** How a line is shown. */
interface ToastHow {
  kind?: 'said' | 'refused';
  actions?: ToastAction[];
  /** Until it is closed. */
  stays?: boolean;
  /** It takes the place of the one of this name. */
  name?: string;
}

interface ToastAction {
  label: string;
  run: () => unknown;
}

interface Question {
  text: string;
  more?: string;
  yes: string;
  no?: string;
  /** What is agreed to can't be undone. */
  isGrave?: boolean;
}

// ---- where everything of a game lies

interface Box {
  x: number;
  y: number;
  width: number;
  height: number;
}

interface Insets {
  top: number;
  right: number;
  bottom: number;
  left: number;
}

interface View {
  width: number;
  height: number;
  /** Device pixels a CSS pixel. */
  ratio: number;
  insets: Insets;
  isTouch: boolean;
}

interface Layout {
  kind: 'above' | 'beside';
  /** Device pixels a pixel of the game. */
  scale: number;
  picture: Box;
  title: Box;
  tools: Box;
  pad: Box | null;
  letters: Box | null;
  left: Box | null;
  right: Box | null;
  /** Where lines are shown; null for the lower edge. */
  messages: Box | null;
}

/** A line that is shown. */
interface ToastShown {
  element: HTMLElement;
  text: string;
  name: string | null;
  /** It gives way to the next one. */
  isSaid: boolean;
  /** For how many seconds more. */
  left: number;
}

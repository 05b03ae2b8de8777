// The game that is open: its session, and its files.
import { Clock, hasClock } from './clock.js';
import { sha256 } from './digest.js';
import { access, closeAll, namesIn, newFile, put, readWhereThere, refusalOf, sectorOf, textOf, wholeOf } from './disk.js';
import { cartridgeIn, locked, nameOf, titleOf } from './folder.js';
import { SLOTS, saidOf } from './game_index.js';
import { MOST_SECTORS, aboutOf, imageOf, newImage, newest, nextNumber, noteAbout, numbersIn, sweep } from './images.js';
import { SECTOR, Session, sectorsNeeded } from './library.js';
import { isBlank, packed, unpacked } from './pack.js';
import { Past } from './past.js';
import { Played, welcomeOf } from './played.js';
import { Refused } from './refusals.js';
import { SHORT, emptied, kept, loaded, placeOf, present, unkept, unloaded } from './states.js';
import { Timeline } from './timeline.js';

const PICTURE_SECONDS = 5;

/** A game that is open: nobody else can open it. */
export class Game {
  /** How many inputs it has, and how many of them are saved. */
  count = 0n;
  saved = 0n;
  /** How many it had when its image was taken up. */
  resumed = 0n;
  /** Lines that the player is to be told once the game is open.
   * @type {string | null} */
  notice = null;
  /** What went wrong, and the game goes on.
   * @type {string[]} */
  troubles = [];
  /** Nobody knows which game is played next: this one has to end. */
  isOver = false;
  /** How many seconds before its end the game goes on; null where it was closed in order, or is a new one.
   * @type {number | null} */
  welcome = null;
  /** The cartridge.
   * @type {Uint8Array} */
  rom = new Uint8Array();
  name = '';
  title = '';
  /** The image that is played, and what stands beside it.
   * @type {number} */
  number = 0;
  /** @type {About | null} */
  about = null;
  /** @type {Session | null} */
  session = null;
  /** @type {Handle | null} */
  disk = null;
  /** @type {Handle | null} */
  timePlace = null;
  /** @type {Handle | null} */
  picturePlace = null;
  /** @type {Clock | null} */
  clock = null;
  /** @type {Past | null} */
  past = null;
  /** How far it was played, and the last hour of it.
   * @type {Played} */
  played = new Played(null);
  /** @type {Timeline} */
  timeline = new Timeline(null);
  // how many calls the session has handed out, and when the picture was kept last
  calls = 0;
  shown = -Infinity;

  /**
   * @param {Library} library
   * @param {Folder} folder
   * @param {GameIndex} index
   * @param {OpenHow} how
   */
  constructor(library, folder, index, { id, isTimed, ask }) {
    this.library = library;
    this.folder = folder;
    this.index = index;
    this.id = id;
    this.isTimed = isTimed;
    this.ask = ask;
  }

  /**
   * Goes on with a game, or begins it where there is none, or where it is to be a new one.
   * @param {Library} library
   * @param {OpenHow} how
   */
  static async open(library, how) {
    return locked(how.id, how.rom !== null, async (folder, index) => {
      const game = new Game(library, folder, index, how);
      try {
        await game.takeCartridge(how.rom, how.name);
        await game.takeImage(how.isNew, how.battery);
        if (how.hasPast) {
          game.past = new Past(game.playing.stateLength);
          game.keepState();
        }
        return game;
      } catch (error) {
        game.drop();
        throw error;
      }
    });
  }

  /** The session of a game that is not over. */
  get playing() {
    if (this.session === null) {
      throw Refused.own('closed');
    }
    return this.session;
  }

  /** The image of a game that is not over. */
  get image() {
    if (this.disk === null) {
      throw Refused.own('closed');
    }
    return this.disk;
  }

  /**
   * What the index says.
   * @returns {Said}
   */
  get said() {
    return this.index.said ?? saidOf(this.number);
  }

  /**
   * @param {Uint8Array | null} rom
   * @param {string | null} name
   */
  async takeCartridge(rom, name) {
    this.rom = rom ?? await cartridgeIn(this.folder, this.id);
    this.name = name ?? (await nameOf(this.folder)).name;
    this.title = titleOf(this.rom) || this.name;
    const there = rom && await readWhereThere(this.folder, 'cart.gb');
    if (rom && (there === null || await sha256(there) !== this.id)) {
      await newFile(this.folder, 'cart.gb', rom);
      await newFile(this.folder, 'about', sectorOf(JSON.stringify({ title: this.title, name: this.name.slice(0, 100) })));
    }
  }

  /**
   * Opens the image that is played, or begins one where there is none, or where it is to be a new one.
   * @param {boolean} isNew
   * @param {Uint8Array | null} battery
   */
  async takeImage(isNew, battery) {
    const { said, isDamaged } = this.index;
    const there = numbersIn(await namesIn(this.folder));
    this.number = said && there.includes(said.play) ? said.play : await newest(this.folder, there);
    const isMissing = said !== null && this.number !== said.play;
    const isBegun = isNew || battery !== null || this.number === 0;
    if (isBegun) {
      await this.begin(there, battery);
    } else {
      this.disk = await access(this.folder, `${this.number}.gbkeep`);
      await this.goOn(there);
      const about = await aboutOf(this.folder, this.number);
      // where the index was lost, it may have been a state
      this.about = about?.kind === 'load' ? about : null;
      if (isDamaged || this.number !== said?.play) {
        await this.index.write(present({ ...(said ?? saidOf(this.number)), play: this.number }, there));
      }
    }
    this.resumed = this.count;
    await this.takeClock();
    if (isMissing && !isBegun) {
      this.say('The game that was played last is not there: the newest of those that are kept is played.');
    }
    if (isDamaged && !isBegun) {
      this.say('What says which game is played was damaged: it may be another one than the last. Each one that is kept stands in the list.');
    }
    this.picturePlace = await access(this.folder, 'picture', true).catch(() => {
      this.say('The picture of this game can\'t be kept for the list.');
      return null;
    });
    await this.takeCourtesies(isBegun);
  }

  /**
   * How far it was played, and its last hour.
   * @param {boolean} isBegun
   */
  async takeCourtesies(isBegun) {
    this.played = new Played(await access(this.folder, 'played', true).catch(() => null));
    this.timeline = new Timeline(await access(this.folder, 'timeline', true).catch(() => null));
    this.timeline.hasFailed ||= this.timeline.handle === null;
    this.welcome = isBegun ? null : welcomeOf(this.played.found, this.number, this.resumed);
    const frames = this.timeline.goOn(this.number, this.resumed);
    // of a game that other versions of the page have played, its inputs tell for how long
    const least = this.played.found === null ? Math.min(Number(this.resumed), Number.MAX_SAFE_INTEGER) : 0;
    this.played.frames = Math.max(this.played.frames, frames, least);
    this.timeline.frames = this.played.frames;
    this.played.note(this.number, this.count);
    if (this.timeline.moments.every((moment) => moment.image !== this.number || moment.count !== this.resumed)) {
      this.keepMoment(true);
    }
  }

  /**
   * A line that the player is to be told once the game is open.
   * @param {string | null} line
   */
  say(line) {
    this.notice = [this.notice, line].filter(Boolean).join(' ') || null;
  }

  /**
   * Takes the game up. Where it is damaged, and others are kept, they are offered.
   * @param {number[]} there
   */
  async goOn(there) {
    try {
      this.resume();
    } catch (error) {
      const refused = refusalOf(error);
      if (['library', 'long'].includes(refused.kind) && await newest(this.folder, there.filter((number) => number !== this.number)) > 0) {
        throw refused.instead('older games of this cartridge are kept: choose `Play this one` beside one of them in the list', 'older');
      }
      throw error;
    }
  }

  /**
   * Begins a game in a new image; `battery` is a battery file that it begins with, or null.
   * @param {number[]} there
   * @param {Uint8Array | null} battery
   */
  async begin(there, battery) {
    const number = nextNumber(await namesIn(this.folder), this.index.said);
    const name = `${number}.gbkeep`;
    try {
      this.index.reserve();
      this.disk = await access(this.folder, name, true);
      const sectors = sectorsNeeded(this.library, this.rom);
      this.disk.truncate(0);
      put(this.disk, new Uint8Array(sectors * SECTOR), 0);
      this.disk.flush();
      this.session = battery ? Session.import(this.library, this.rom, battery, sectors) : Session.begin(this.library, this.rom, sectors);
      this.makeCalls();
    } catch (error) {
      closeAll([this.disk]);
      this.disk = null;
      await this.folder.removeEntry(name).catch(() => {});
      throw error;
    }
    this.number = number;
    this.about = null;
    // where this fails, the index may name the new image: it stays
    const { said } = this.index;
    await this.index.write(said ? loaded(present(said, there), number) : saidOf(number));
    this.count = this.playing.count();
    this.saved = this.count;
  }

  /** Takes the game up from the disk as it is. */
  resume() {
    const image = wholeOf(this.image);
    if (image.length > MOST_SECTORS * SECTOR) {
      throw Refused.own('long');
    }
    this.session?.free();
    this.session = null;
    this.session = Session.resume(this.library, this.rom, image);
    this.makeCalls();
    this.count = this.playing.count();
    this.saved = this.count;
  }

  /** Makes the calls that the session hands out on the disk, each before the next. */
  makeCalls() {
    for (let call = this.playing.nextCall(); call !== null; call = this.playing.nextCall()) {
      this.make(call);
    }
  }

  /** @param {{sector: number, bytes: Uint8Array | null}} call */
  make({ sector, bytes }) {
    try {
      if (bytes === null) {
        this.image.flush();
      } else {
        put(this.image, bytes, sector * SECTOR);
      }
    } catch {
      throw Refused.own('write');
    }
  }

  async takeClock() {
    this.clock = null;
    if (!this.isTimed || !hasClock(this.rom)) {
      return;
    }
    const handle = await access(this.folder, `${this.number}.time`, true);
    this.timePlace = handle;
    const place = {
      read: () => textOf(wholeOf(handle)),
      write: (/** @type {string} */ text) => {
        put(handle, sectorOf(text), 0);
        handle.flush();
      },
    };
    this.clock = new Clock(this.library, place, this.resumed);
    this.say(await this.clock.begin(this.ask));
    this.keep();
  }

  /**
   * Frames with these buttons. States and moments are kept on the way.
   * @param {number} buttons
   * @param {number} count
   */
  frames(buttons, count) {
    for (let left = count; left > 0;) {
      const some = Math.min(left, this.past?.left() ?? left);
      this.playing.frames(buttons, some);
      this.count += BigInt(some);
      left -= some;
      if (this.past?.played(some)) {
        this.keepState();
      }
    }
    this.played.frames += count;
    this.played.note(this.number, this.count);
    if (this.timeline.isDue(this.played.frames)) {
      this.keepMoment(false);
    }
  }

  /** Switches the power off and on. */
  power() {
    this.keepMoment(true);
    this.keepPicture(0);
    this.playing.power();
    this.count += 1n;
    this.keepState();
  }

  /** Keeps the state in which the game is, so that it can be rewound to it. */
  keepState() {
    this.past?.keep(this.clock?.until ?? 0, (bytes) => this.playing.stateInto(bytes));
  }

  /**
   * Goes back by so many of the states that are kept, as far as there are any. Answers by how many frames it went back; null where there is no older state.
   * @param {number} states
   */
  rewind(states) {
    const state = this.past?.before(states) ?? null;
    if (this.past === null || state === null) {
      return null;
    }
    this.playing.restore(state.bytes);
    this.count += 1n;
    const { frame } = this.past;
    this.past.goTo(state);
    this.clock?.goBack(state.until);
    return frame - this.past.frame;
  }

  /**
   * Keeps a moment of the timeline: `isTurn` says that the game goes elsewhere then.
   * @param {boolean} isTurn
   */
  async keepMoment(isTurn) {
    if (this.timeline.isOver) {
      return;
    }
    try {
      const state = new Uint8Array(this.playing.stateLength);
      this.playing.stateInto(state);
      const told = { image: this.number, count: this.count, frames: this.played.frames, until: this.clock?.until ?? 0, isTurn };
      await this.timeline.keep(told, state, this.picture());
    } catch {
      // there is no memory for it
      this.timeline.fail();
    }
  }

  /** The last hour of play. */
  moments() {
    return this.timeline.shown(this.played.frames);
  }

  /**
   * Goes to a moment of the timeline, as one input. Answers by how many frames the game went back.
   * @param {number} number
   */
  async goToMoment(number) {
    const { moment, state } = await this.timeline.stateOf(number, this.playing.stateLength);
    await this.keepMoment(true);
    try {
      this.playing.restore(state);
    } catch {
      this.timeline.drop(moment);
      throw Refused.own('moment');
    }
    this.count += 1n;
    if (this.clock && moment.until > 0 && moment.until < this.clock.until) {
      this.clock.goBack(moment.until);
    }
    this.keepState();
    return this.played.frames - moment.frames;
  }

  /** Gives the clock the seconds that have passed, saves, and answers the count of inputs that are saved. */
  keep() {
    const passed = this.clock?.claim(this.count) ?? 0;
    if (passed > 0) {
      this.playing.seconds(passed);
      this.count += 1n;
      this.clock?.given();
    }
    if (this.count > this.saved) {
      const saved = this.playing.save();
      this.makeCalls();
      this.saved = saved;
      this.clock?.saved(saved);
      this.played.note(this.number, this.count, true);
      this.keepPicture(PICTURE_SECONDS);
    }
    if (this.clock?.hasFailed) {
      this.clock.hasFailed = false;
      this.troubles.push('The browser could not write until when the clock of the cartridge was given: it is given no time before that is written.');
    }
    if (this.timeline.hasFailed) {
      this.timeline.hasFailed = false;
      this.troubles.push('The timeline of this game could not be kept.');
    }
    return this.saved;
  }

  /** Saves everything: the page may be left. */
  leave() {
    this.keep();
    this.keepPicture(0);
    this.played.note(this.number, this.count, true, true);
  }

  /**
   * Keeps the picture for the list of games, where the last was kept so many seconds ago.
   * @param {number} seconds
   */
  keepPicture(seconds) {
    const now = performance.now();
    if (this.picturePlace && now - this.shown >= 1000 * seconds) {
      this.shown = now;
      try {
        const picture = this.picture();
        // a blank one shows nobody which game it is: the picture before stays
        if (!isBlank(picture)) {
          put(this.picturePlace, picture, 0);
        }
      } catch {
        closeAll([this.picturePlace]);
        this.picturePlace = null;
        this.troubles.push('The picture of this game could not be kept for the list.');
      }
    }
  }

  /** The picture: shades, 0 the darkest and 3 the lightest, row by row. */
  picture() {
    return this.playing.picture();
  }

  /** The SHA-256 of the machine's snapshot, as `gbkeep show` prints it. */
  state() {
    return sha256(this.playing.snapshot());
  }

  /** The battery file, as other emulators read it. */
  battery() {
    return this.playing.battery();
  }

  /** The bytes of the SAVE. Everything is saved. */
  bytes() {
    return wholeOf(this.image);
  }

  /** Whether the last load can be undone. */
  get canUndoLoad() {
    return this.said.back !== 0;
  }

  /**
   * The slots.
   * @returns {Promise<StateRow[]>}
   */
  async states() {
    return Promise.all(Array.from({ length: SLOTS }, (_, place) => this.stateOf(place)));
  }

  /**
   * @param {number} place
   * @returns {Promise<StateRow>}
   */
  async stateOf(place) {
    const { slots, undo } = this.said;
    const empty = { slot: place + 1, saved: 0, count: 0n, picture: null, canUndo: undo[place] !== null };
    const number = slots[place];
    try {
      const file = number === 0 ? null : await (await this.folder.getFileHandle(`${number}.gbkeep`)).getFile();
      if (file === null) {
        return empty;
      }
      const about = await aboutOf(this.folder, number) ?? await this.aboutState(number, file);
      return { ...empty, saved: about.time || file.lastModified, count: about.begun, picture: about.picture && unpacked(about.picture) };
    } catch (error) {
      if (refusalOf(error).kind === 'gone') {
        return empty;
      }
      throw error;
    }
  }

  /**
   * What stands beside a state that other versions of the page have kept, or whose file was lost.
   * @param {number} number
   * @param {File} file
   * @returns {Promise<About>}
   */
  async aboutState(number, file) {
    /** @type {About} */
    const about = { kind: 'state', time: file.lastModified, begun: 0n, left: null, picture: null };
    let session = null;
    try {
      session = this.tried(new Uint8Array(await file.arrayBuffer()));
      about.begun = session.count();
      about.picture = packed(session.picture());
      await noteAbout(this.folder, number, about);
    } catch {
      // it is refused where it is loaded
    } finally {
      session?.free();
    }
    return about;
  }

  /**
   * A session of an image. Its calls are not made. Refused where the image can't be played.
   * @param {Uint8Array} image
   */
  tried(image) {
    return Session.resume(this.library, this.rom, image);
  }

  /**
   * How many inputs an image has.
   * @param {Uint8Array} image
   */
  countOf(image) {
    const session = this.tried(image);
    try {
      return session.count();
    } finally {
      session.free();
    }
  }

  /**
   * What stands beside a copy of the game, or of a state with so many inputs.
   * @param {'state' | 'load' | 'game'} kind
   * @param {bigint} begun
   * @param {Uint8Array | null} picture
   * @returns {About}
   */
  aboutCopy(kind, begun, picture) {
    return { kind, time: Date.now(), begun, left: null, picture };
  }

  /**
   * Copies the game to a slot. What was in it can be brought back. Everything is saved.
   * @param {number} slot
   */
  async keepSlot(slot) {
    const image = this.bytes();
    const there = await imageOf(this.folder, this.said.slots[placeOf(slot)]);
    // a key that is pressed twice leaves what can be undone
    if (there === null || there.length !== image.length || there.some((byte, at) => byte !== image[at])) {
      const about = this.aboutCopy('state', this.count, packed(this.picture()));
      await this.copy(image, this.number, about, (number) => kept(this.said, slot, number));
    }
    this.isOver = false;
  }

  /**
   * What was in a slot before it was kept last is there again.
   * @param {number} slot
   */
  async undoKeep(slot) {
    await this.write(unkept(this.said, slot));
    this.isOver = false;
  }

  /**
   * Empties a slot, which `undoKeep` undoes.
   * @param {number} slot
   */
  async deleteState(slot) {
    await this.write(emptied(this.said, slot));
    this.isOver = false;
  }

  /**
   * Goes on from a copy of a slot. The game that was played stays as an image. Everything is saved.
   * @param {number} slot
   */
  async loadSlot(slot) {
    const from = this.said.slots[placeOf(slot)];
    const image = await imageOf(this.folder, from);
    if (image === null) {
      throw Refused.own('empty');
    }
    // tried before it is played
    const session = this.tried(image);
    const about = this.aboutCopy('load', session.count(), null);
    session.free();
    const wasShort = this.about?.kind === 'load' && this.count - this.about.begun < SHORT;
    await this.leaveImage();
    const number = await this.copy(image, from, about, (one) => loaded(this.said, one, wasShort));
    await this.goTo(number, about);
  }

  /** Goes on with the game that was played before the last load; the other one stays. Everything is saved. */
  async undoLoad() {
    const said = unloaded(this.said);
    const image = await imageOf(this.folder, said.play);
    if (image === null) {
      throw Refused.own('undo');
    }
    this.tried(image).free();
    await this.leaveImage();
    await this.write(said);
    await this.goTo(said.play, await aboutOf(this.folder, said.play));
  }

  /**
   * Takes a SAVE in, which was tried, as the image that is played once this game was closed. Everything is saved.
   * @param {Uint8Array} image
   */
  async takeIn(image) {
    await this.leaveImage();
    await this.copy(image, 0, null, (number) => loaded(this.said, number));
  }

  /** Another image is to be played: what this one was is noted beside it, and its last moment. */
  async leaveImage() {
    await this.keepMoment(true);
    const about = this.about ?? this.aboutCopy('game', 0n, null);
    await noteAbout(this.folder, this.number, { ...about, left: this.count, picture: packed(this.picture()) });
  }

  /**
   * Plays another image, as the index says.
   * @param {number} number
   * @param {About | null} about
   */
  async goTo(number, about) {
    closeAll([this.disk, this.timePlace]);
    this.disk = null;
    this.timePlace = null;
    this.number = number;
    this.about = about;
    this.disk = await access(this.folder, `${number}.gbkeep`);
    this.resume();
    this.resumed = this.count;
    this.notice = null;
    await this.takeClock();
    this.past?.clear();
    this.keepState();
    this.played.note(this.number, this.count);
    this.isOver = false;
  }

  /**
   * Makes an image of these bytes, with the time of the image `from`, and has the index say something of it. Answers its number. Where the index failed,
   * the game is over, and it is over until its caller goes on with what the index says.
   * @param {Uint8Array} image
   * @param {number} from
   * @param {About | null} about
   * @param {(number: number) => Said} said
   */
  async copy(image, from, about, said) {
    const number = nextNumber(await namesIn(this.folder), this.said);
    const make = async () => {
      this.index.reserve();
      const time = from === this.number ? this.timePlace && wholeOf(this.timePlace) : await readWhereThere(this.folder, `${from}.time`);
      await newImage(this.folder, number, image, this.clock ? time : null, about);
    };
    try {
      await make();
    } catch (error) {
      // the timeline is a cache, and gives its room
      if (!['room', 'disk'].includes(refusalOf(error).kind) || !this.timeline.clear()) {
        throw refusalOf(error);
      }
      await make().catch((again) => { throw refusalOf(again); });
    }
    await this.write(said(number));
    return number;
  }

  /**
   * Has the index say so. The game is over where that fails, and until its caller goes on with it.
   * @param {Said} said
   */
  async write(said) {
    await sweep(this.folder, [this.said, this.index.before, said], (image) => this.countOf(image));
    this.isOver = true;
    await this.index.write(said);
  }

  /** Saves, and lets others open the game. */
  close() {
    try {
      this.leave();
    } finally {
      this.drop();
    }
  }

  /** Lets others open the game; what is unsaved is lost. */
  drop() {
    closeAll([this.disk, this.timePlace, this.picturePlace]);
    this.played.close();
    this.timeline.close();
    this.index.close();
    const { session } = this;
    this.session = null;
    this.disk = null;
    this.timePlace = null;
    this.picturePlace = null;
    session?.free();
  }
}

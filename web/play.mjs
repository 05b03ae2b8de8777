// Plays by the module alone: node play.mjs MODULE ROM SAVE PICTURE [BUTTONS:FRAMES ..]
// MODULE is gbkeep.wasm, or gbkeep.wasm.gz.
// Each word gives so many frames with these buttons (two hexadecimal digits), and saves. SAVE and PICTURE are left as files; the state's SHA-256 and the count
// of inputs are printed as JSON.
import { createHash } from 'node:crypto';
import { readFileSync, writeFileSync } from 'node:fs';
import { gunzipSync } from 'node:zlib';

const SECTOR = 512;
const PICTURE = 160 * 144;
// what a state has in front of the snapshot
const HEADER = 40;
const WRITE = 1;

const [module, rom, save, picture, ...inputs] = process.argv.slice(2);
const file = readFileSync(module);
const { instance } = await WebAssembly.instantiate(module.endsWith('.gz') ? gunzipSync(file) : file, {});
const calls = instance.exports;

// the memory moves where it grows
const bytes = (at, length) => new Uint8Array(calls.memory.buffer, Number(at), length);
const word = (at) => new DataView(calls.memory.buffer).getUint32(Number(at), true);
const long = (at) => new DataView(calls.memory.buffer).getBigUint64(Number(at), true);

function take(length) {
  const at = calls.malloc(BigInt(length));
  if (at === 0n) {
    throw new Error('no memory');
  }
  return at;
}

function check(code) {
  if (code !== 0) {
    throw new Error(`code ${code}`);
  }
}

const cart = readFileSync(rom);
const place = take(cart.length);
const out = take(8);
bytes(place, cart.length).set(cart);
check(calls.gbkeep_session_sectors(place, BigInt(cart.length), out));
const image = Buffer.alloc(word(out) * SECTOR);
check(calls.gbkeep_session_begin(place, BigInt(cart.length), word(out), out));
const session = long(out);
const call = take(8 + SECTOR);

function makeCalls() {
  for (calls.gbkeep_session_next_call(session, call); word(call) !== 0; calls.gbkeep_session_next_call(session, call)) {
    if (word(call) === WRITE) {
      image.set(bytes(call + 8n, SECTOR), word(call + 4n) * SECTOR);
    }
  }
}

makeCalls();
const begun = process.cpuUsage().user;
let frames = 0;
for (const input of inputs) {
  const [buttons, count] = input.split(':');
  check(calls.gbkeep_session_frames(session, parseInt(buttons, 16), Number(count)));
  check(calls.gbkeep_session_save(session, out));
  makeCalls();
  frames += Number(count);
}
const seconds = (process.cpuUsage().user - begun) / 1e6;

const shades = take(PICTURE);
check(calls.gbkeep_session_picture(session, shades, BigInt(PICTURE)));
const length = Number(calls.gbkeep_session_state_length(session));
const state = take(length);
check(calls.gbkeep_session_state(session, state, BigInt(length)));
writeFileSync(save, image);
writeFileSync(picture, bytes(shades, PICTURE));
console.log(JSON.stringify({
  state: createHash('sha256').update(bytes(state, length).subarray(HEADER)).digest('hex'),
  count: Number(calls.gbkeep_session_count(session)),
  framesPerSecond: Math.round(frames / seconds),
}));

// A season in JavaScript, through the module that web/build makes:   web/build && node web/season.mjs [MODULE]
// A volume is formatted, filled, searched, tuned, loses power in mid-call and restarts; every record and state is held to a map. Any language that
// runs WebAssembly calls it so: offsets into the module's memory, a length as a number of 64 bits (in JavaScript a BigInt).
import assert from 'node:assert/strict';
import { readFileSync } from 'node:fs';
import { fileURLToPath } from 'node:url';
import { gzipSync } from 'node:zlib';

const file = process.argv[2] ?? fileURLToPath(new URL('../target/web/level_store.wasm', import.meta.url));
const bytes = readFileSync(file);
const { instance } = await WebAssembly.instantiate(bytes, {}); // it imports nothing
const { memory, __heap_base, ...functions } = instance.exports;

// ---- memory: what lies from __heap_base on is ours

let end = __heap_base.value;
function room(length) {
    const at = (end + 7) & ~7;
    end = at + length;
    const missing = end - memory.buffer.byteLength;
    if (missing > 0) memory.grow(Math.ceil(missing / 65536));
    return at;
}
// A view is made anew each time: memory that grows is another buffer.
const words = (at, count) => [...new Uint32Array(memory.buffer, at, count)];
const wide = (at) => new DataView(memory.buffer).getBigUint64(at, true);

// ---- the volume: sizes as in include/level_store.h

const S = 16, R = 16, D = 4, k = 4;
const quotient = (a, b) => Math.floor(a / b);
const blocks = R + quotient(R + 1, 2) + D + 1 + S / 2 + quotient(R, 4 * S) * (S / 4) + 1 + S / 2 + quotient(D, S) * (S / 4);
const sizes = [64 * S * blocks, 64 * blocks, 24 * S + 64];
const arrays = sizes.map(room);
const lent = arrays.flatMap((at, i) => [at, BigInt(sizes[i])]);
const state = room(24), answer = room(32), number = room(8);

const stored = () => words(state, 6);
const store = (numbers) => new Uint32Array(memory.buffer, state, 6).set(numbers);

// ---- calls; the state goes from each to the next

function change(name, ...numbers) {
    functions[`level_store_${name}_numbers`](answer, state, ...numbers, ...lent);
    const [refusal, ...next] = words(answer, 7);
    store(next);
    return refusal;
}

function cut(name, budget, ...numbers) {
    functions[`level_store_${name}_cut_numbers`](answer, number, budget, state, ...numbers, ...lent);
    const [refusal, finished, ...next] = words(answer, 8);
    store(next);
    return { refusal, finished, steps: wide(number) };
}

// The record of a level: key, moves, goal, word; undefined if there is none.
function lookup(key) {
    functions.level_store_lookup_numbers(answer, number, state, key, ...lent);
    const [refusal, found, count, inRam, offset] = words(answer, 5);
    return { refusal, count, record: found ? words(arrays[inRam ? 2 : 0] + offset, 4) : undefined };
}

// ---- the season

const levels = new Map(); // what has to be there
let n = 0, d = 0;

function holds() {
    assert.deepEqual(stored(), [S, R, D, k, n, d]);
    assert.equal(n - d, levels.size);
}

function isThere(key) {
    const { refusal, record } = lookup(key);
    assert.equal(refusal, 0);
    assert.deepEqual(record, levels.get(key));
}

assert.equal(change('insert', 1, 2, 3, 0), 1); // no format yet
assert.equal(change('format', S, R, D, k), 0);
holds();

for (let i = 0; i < 900; i++) {
    const record = [7 * i, 40 + i, i, 0];
    assert.equal(change('insert', ...record), 0);
    levels.set(7 * i, record);
    n++;
    holds();
}
assert.equal(change('insert', 7 * 333, 1, 1, 0), 3); // it is there
assert.equal(change('delete', 1), 4); // it is not
holds();

let opened = 0;
for (let key = 0; key < 6300; key++) { // 900 hits and 5400 misses
    isThere(key);
    opened += lookup(key).count;
}

for (let i = 0; i < 120; i++) {
    const record = [21 * i, 5 * i, 4294967295 - i, 0];
    assert.equal(change('update', ...record), 0);
    levels.set(21 * i, record);
    n++, d++;
    assert.equal(change('delete', 21 * i + 7), 0);
    levels.delete(21 * i + 7);
    d++;
    holds();
}

// Power is lost when an insert has stored its intent: all calls but a restart are refused by 10 until it is finished.
const last = [4294967295, 12, 34, 0];
const began = cut('insert', 1n, ...last);
assert.deepEqual(began, { refusal: 0, finished: 0, steps: 1n });
holds();
assert.equal(lookup(0).refusal, 10);
store([0, 0, 0, 0, 0, 0]); // the state is in the header
assert.equal(change('restart'), 0);
levels.set(last[0], last);
n++;
holds();

// At a power-up without a pending call nothing changes.
const before = arrays.map((at, i) => Buffer.from(memory.buffer.slice(at, at + sizes[i])));
store([0, 0, 0, 0, 0, 0]);
assert.equal(change('restart'), 0);
holds();
arrays.forEach((at, i) => assert.ok(before[i].equals(Buffer.from(memory.buffer, at, sizes[i]))));

for (let key = 0; key < 6300; key++) isThere(key);
isThere(last[0]);

// A tab, by its rows.
const tab = Buffer.from('level,moves,goal\n0,11,12\n6301,21,22\n');
const text = room(tab.length);
new Uint8Array(memory.buffer, text, tab.length).set(tab);
functions.level_store_load_numbers(answer, state, text, BigInt(tab.length), ...lent);
assert.deepEqual(words(answer, 2), [0, 2]);
store(words(answer + 8, 6));
levels.set(0, [0, 11, 12, 0]).set(6301, [6301, 21, 22, 0]);
n += 2, d++;
holds();
[0, 6301].forEach(isThere);

console.log(`season: ${levels.size} levels, n ${n}, d ${d}; a lookup opened ${(opened / 6300).toFixed(2)} pages; every record and state is right`);
console.log(`season: the module has ${bytes.length} bytes, ${gzipSync(bytes, { level: 9 }).length} by gzip`);

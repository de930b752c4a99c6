// What the checks have Node do with web/: node web_cases.mjs COMMAND WORDS.. prints its results as JSON.
import { createHash } from 'node:crypto';
import { readFileSync } from 'node:fs';
import { Coder } from '../web/coder.mjs';
import { moduleBytes } from '../web/engine.mjs';
import { errorData } from '../web/errors.mjs';
import * as laz from '../web/laz.mjs';

const module = await moduleBytes();
const digest = (bytes) => createHash('sha256').update(bytes).digest('hex');
const digestOf = async (blob) => digest(new Uint8Array(await blob.arrayBuffer()));
const told = (fault) => (fault instanceof laz.Refused ? fault.message : `${fault.name}: ${fault.message}`);

// The digest of the plain file of each of these, or why it is refused. [NAME, ..]
async function unpackAll(names, options = {}) {
    const answers = [];
    for (const name of names)
        answers.push(await laz.unpack(readFileSync(name), options).then(digestOf, told));
    return answers;
}

// The digest of the packed file of each plain one. [[NAME, CHUNK SIZE], ..]
async function packAll(rows, options = {}) {
    const answers = [];
    for (const [name, chunkSize] of rows)
        answers.push(await laz.pack(readFileSync(name), { ...options, chunkSize }).then(digestOf, told));
    return answers;
}

// What each call of the coder answers: 0 and a digest, 2, or the name of an error.
// [{form, extra, op, data, count}, ..] with the bytes in base64
async function replay(cases) {
    const coder = await Coder.of(await WebAssembly.compile(module));
    return cases.map(({ form, extra, op, data, count }) => {
        const layout = { format: form, extra, recordLength: [20, 28, 26, 34][form] + extra };
        const bytes = new Uint8Array(Buffer.from(data, 'base64'));
        try {
            return [0, digest(op === 'pack' ? coder.pack(layout, bytes) : coder.unpack(layout, bytes, count))];
        } catch (fault) {
            return [fault.number === 21 ? 2 : fault.name, ''];
        }
    });
}

// The module with a maximum of `pages` pages of memory, by its section of memories: one memory, without a maximum until now.
function limited(pages) {
    const bytes = [...module];
    let at = 8;
    const number = () => {
        let value = 0;
        for (let shift = 0; ; shift += 7) {
            const byte = bytes[at++];
            value += (byte & 127) * 2 ** shift;
            if (byte < 128)
                return value;
        }
    };
    while (at < bytes.length) {
        const kind = bytes[at++], start = at, length = number(), from = at;
        if (kind !== 5) {
            at = from + length;
            continue;
        }
        if (number() !== 1 || number() !== 0)
            throw new Error('the memory of the module has another form');
        const least = number();
        const leb = (value) => (value < 128 ? [value] : [value % 128 + 128, ...leb(Math.floor(value / 128))]);
        const body = [1, 1, ...leb(least), ...leb(pages)];
        bytes.splice(start, from + length - start, ...leb(body.length), ...body);
        return { least, bytes: new Uint8Array(bytes) };
    }
    throw new Error('the module has no memory');
}

// For each most number of pages, from the least on until all is done: what opening, unpacking and packing end with.
async function limits([name]) {
    const file = readFileSync(name), answers = [];
    const { least } = limited(60000), plain = new Uint8Array(await (await laz.unpack(file)).arrayBuffer());
    for (let pages = least; ; pages++) {
        const { bytes } = limited(pages);
        const one = await laz.unpack(file, { module: bytes }).then(digestOf, told);
        const two = await laz.pack(plain, { module: bytes, chunkSize: 256 }).then(digestOf, told);
        answers.push([pages, one, two]);
        if (!one.includes(' ') && !two.includes(' '))
            return answers;
    }
}

// An instance after a call that found no memory, and after one that trapped. [NAME of a file of one chunk]
async function afterwards([name]) {
    const file = new Uint8Array(readFileSync(name)), answers = {};
    const { bytes, least } = limited(60000);
    const instance = await WebAssembly.instantiate(bytes, {});
    const small = await WebAssembly.instantiate(limited(least + 1).bytes, {});
    const attempt = (call) => {
        try {
            return call();
        } catch (fault) {
            return fault.name;
        }
    };
    const coder = new Coder(small.instance.exports), big = new Uint8Array(10 ** 6);
    answers.refused = attempt(() => coder.unpack({ format: 0, extra: 0, recordLength: 20 }, big, 10));
    answers.then = attempt(() => coder.need(file.subarray(0, 227), file.length));
    // though there is room, each call takes a refused growth for what it is
    const full = new Coder({ ...instance.instance.exports, laz_host_end: () => 0 });
    const layout = { format: 0, extra: 0, recordLength: 20 }, front = file.subarray(0, 227), table = new Uint8Array(8);
    answers.full = [() => full.need(front, file.length), () => full.head(front, file.length),
        () => full.table(table, 50000, 0, 0), () => full.unpack(layout, table, 1),
        () => full.pack(layout, new Uint8Array(20)), () => full.payload(layout, 50000),
        () => full.tableOf(new Uint32Array(1))].map(attempt);
    const trap = () => { throw new WebAssembly.RuntimeError('unreachable'); };
    const trapping = { ...instance.instance.exports, laz_c_need: trap };
    const stopped = new Coder(trapping);
    answers.trapped = attempt(() => stopped.need(file.subarray(0, 227), file.length));
    answers.closed = attempt(() => stopped.tableRoom(1));
    return answers;
}

// A source of `size` bytes that has those of a file, and zeros after them; it tells what is asked for.
function counted(bytes, size) {
    const asked = [];
    return {
        asked, size,
        slice(from, to) {
            asked.push([from, to]);
            return { async arrayBuffer() {
                const part = new Uint8Array(to - from);
                part.set(bytes.subarray(Math.min(from, bytes.length), Math.min(to, bytes.length)));
                return part.buffer;
            } };
        },
    };
}

// What is read of a file with 2 GB of bytes after its table: by opening it, and by asking for a range of records.
async function slices([name, from, to]) {
    const bytes = new Uint8Array(readFileSync(name)), source = counted(bytes, 2 ** 31);
    const file = await laz.open(source), opening = source.asked.splice(0);
    const found = [];
    for await (const { number, count, X } of file.chunks({ from, to, fields: ['X'] }))
        found.push([number, count, X[0]]);
    return { opening, reading: source.asked, found, chunks: file.chunkCount,
        places: found.map(([number]) => file.chunk(number)) };
}

// All fields of the points, and those of the head. [NAME, WORKERS]
async function fields([name, workers]) {
    const file = await laz.open(readFileSync(name), { workers });
    const lists = {}, numbers = [];
    for await (const chunk of file.chunks()) {
        numbers.push(chunk.number);
        for (const field of laz.FIELDS)
            if (chunk[field] !== undefined)
                (lists[field] ??= []).push(...chunk[field]);
    }
    await file.close();
    const { head } = file;
    return { lists, numbers, points: file.points, scale: file.scale, offset: file.offset, box: file.box, crs: file.crs,
        vlrs: file.vlrs.map(({ userId, recordId, description, payload }) =>
            [userId, recordId, description, Buffer.from(payload).toString('hex')]),
        head: [head.version, head.headerSize, head.offset, head.format, head.recordLength, head.extra, head.software,
            head.created] };
}

// What is no use: each answers with an error of this name.
async function misuse([packed, plain]) {
    const bytes = readFileSync(packed), file = await laz.open(bytes), other = await laz.open(readFileSync(plain));
    const short = { size: bytes.length, slice: (from, to) => new Blob([bytes]).slice(from, Math.min(to, 300)) };
    const gone = { size: 1000, slice: () => ({ arrayBuffer: () => Promise.reject(new Error('gone')) }) };
    const names = {};
    const attempt = async (name, call) => {
        names[name] = await call().then(() => 'done', (fault) => fault.name);
    };
    await attempt('pack a packed file', () => file.pack());
    await attempt('chunk size 0', () => other.pack({ chunkSize: 0 }));
    await attempt('chunk size 250001', () => other.pack({ chunkSize: 250001 }));
    await attempt('a text', () => laz.open('tile.laz'));
    await attempt('nothing', () => laz.open(null));
    await attempt('65 workers', () => laz.open(bytes, { workers: 65 }));
    await attempt('a record before the first', () => file.chunks({ from: -1 }).next());
    await attempt('a file that was cut', () => laz.open(short));
    await attempt('a file that is gone', () => laz.open(gone));
    await attempt('a module that is none', () => laz.open(bytes, { module: new Uint8Array(8) }));
    await attempt('a Blob', async () => (await laz.open(new Blob([bytes]))).unpack());
    await attempt('records after the last', async () => {
        for await (const chunk of file.chunks({ from: file.points }))
            throw new Error(`a chunk ${chunk.number}`);
    });
    await file.close();
    await attempt('a closed file', () => file.unpack());
    return { names, exports: Object.keys(laz), faults: laz.CAUSES,
        data: errorData(new laz.Refused(21, 3)) };
}

// Milliseconds to decode a file to arrays with a number of workers, the best of some rounds. [NAME, WORKERS, ROUNDS]
async function times([name, workers, rounds]) {
    const bytes = readFileSync(name), file = await laz.open(new Blob([bytes]), { workers });
    let best = Infinity;
    for (let round = 0; round < rounds; round++) {
        const begun = performance.now();
        let points = 0;
        for await (const chunk of file.chunks())
            points += chunk.count;
        if (points !== file.points)
            throw new Error('points are missing');
        best = Math.min(best, performance.now() - begun);
    }
    await file.close();
    return best;
}

// Nanoseconds a point to unpack and to pack in memory, of this process alone, the best of some rounds. [NAME, ROUNDS]
async function coderTimes([name, rounds]) {
    const coder = await Coder.of(await WebAssembly.compile(module)), bytes = new Uint8Array(readFileSync(name));
    const head = coder.head(bytes.subarray(0, coder.need(bytes.subarray(0, 227), bytes.length)), bytes.length);
    const best = [Infinity, Infinity];
    const timed = (sums, way, call) => {
        const begun = process.cpuUsage(), answer = call(), spent = process.cpuUsage(begun);
        sums[way] += 1000 * (spent.user + spent.system) / head.points;
        return answer;
    };
    for (let round = 0; round < rounds; round++) {
        const sums = [0, 0];
        for (let i = 0; i < head.points; i += 50000) {
            const count = Math.min(50000, head.points - i), at = head.offset + i * head.recordLength;
            const records = bytes.subarray(at, at + count * head.recordLength);
            const chunk = timed(sums, 1, () => coder.pack(head, records)).slice();
            const back = timed(sums, 0, () => coder.unpack(head, chunk, count));
            if (Buffer.compare(back, records) !== 0)
                throw new Error('other records came back');
        }
        for (const way of [0, 1])
            best[way] = Math.min(best[way], sums[way]);
    }
    return best;
}

const commands = { unpackAll, packAll, replay, limits, afterwards, slices, fields, misuse, times, coderTimes };
const [command, words, options] = JSON.parse(readFileSync(0));
console.log(JSON.stringify(await commands[command](words, options ?? {})));

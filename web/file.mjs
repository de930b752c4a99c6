// A LAS or LAZ file that is open: its head, and its points chunk by chunk.
import { COUNTED, Coder, FRONT, MAX_CHUNK_POINTS } from './coder.mjs';
import { OutOfMemory, ReadFault, Refused, Stopped, TABLE_POINTER, newBytes } from './errors.mjs';
import { Head, plainHead } from './head.mjs';
import { FIELDS } from './points.mjs';
import { MAX_WORKERS, Pool, inOrder } from './pool.mjs';
import { jobDone, jobError } from './worker.mjs';

/** How many records of a plain file are read at a time, and the points of a chunk that is packed if none is said. */
export const CHUNK = 50000;
// a module that took more for a chunk table begins anew
const MUCH_MEMORY = 2 ** 26;

// Anything with `size` and `slice` is as a Blob; bytes are made one.
function sourceOf(it) {
    if (it instanceof ArrayBuffer)
        return sourceOf(new Uint8Array(it));
    if (ArrayBuffer.isView(it)) {
        const bytes = new Uint8Array(it.buffer, it.byteOffset, it.byteLength);
        return {
            size: bytes.length,
            slice: (from, to) => ({ arrayBuffer: async () => bytes.slice(from, to).buffer }),
        };
    }
    if (it === null || typeof it !== 'object' || typeof it.slice !== 'function' || !Number.isSafeInteger(it.size))
        throw new TypeError('a file is bytes, or has `size` and `slice` as a Blob');
    return it;
}

// The bytes of a source from one place to another, all of them.
async function readFrom(source, from, to) {
    let bytes;
    try {
        bytes = new Uint8Array(await source.slice(from, to).arrayBuffer());
    } catch (fault) {
        throw fault instanceof RangeError ? new OutOfMemory() : new ReadFault(undefined, fault);
    }
    if (bytes.length !== to - from)
        throw new ReadFault();
    return bytes;
}

// Modules that were compiled, by their bytes.
const compiledModules = new WeakMap();

export function compiled(module) {
    if (!compiledModules.has(module))
        compiledModules.set(module, WebAssembly.compile(module));
    return compiledModules.get(module);
}

const longAt = (bytes) => new DataView(bytes.buffer, bytes.byteOffset).getBigUint64(0, true);

// Where the chunk table begins and ends.
async function tablePlace(read, size, offset) {
    const first = offset + 8;
    if (size < first)
        throw new Refused(TABLE_POINTER);
    let end = size, place = longAt(await read(offset, first));
    if (place === 0xffffffffffffffffn) {
        if (size < first + 8)
            throw new Refused(TABLE_POINTER);
        end = size - 8;
        place = longAt(await read(end, size));
    }
    if (place < BigInt(first) || place > BigInt(end))
        throw new Refused(TABLE_POINTER);
    return [Number(place), end];
}

// The numbers of points and of bytes of the chunks of a packed file.
async function readTable(coder, read, size, raw) {
    const first = raw.offset + 8;
    const [place, end] = await tablePlace(read, size, raw.offset);
    let table = await read(place, Math.min(end, place + 8));
    if (table.length === 8) {
        const count = new DataView(table.buffer).getUint32(4, true);
        table = await read(place, Math.min(end, place + coder.tableRoom(count)));
    }
    return coder.table(table, raw.chunk, raw.points, place - first);
}

// The sums of the first numbers of a list, from the first on; one more than the list has.
function sums(list, first) {
    const room = new Float64Array(newBytes(8 * (list.length + 1)).buffer);
    room[0] = first;
    for (let i = 0; i < list.length; i++)
        room[i + 1] = room[i] + list[i];
    return room;
}

// The number of the last entry of an ascending list that is at most `value`.
function lastUpTo(list, value) {
    let low = 0, high = list.length - 1;
    while (low < high) {
        const middle = Math.ceil((low + high) / 2);
        if (list[middle] <= value)
            low = middle;
        else
            high = middle - 1;
    }
    return low;
}

// The numbers of points of the pieces in which `points` records are taken.
function evenSizes(points, chunk) {
    const sizes = new Uint32Array(newBytes(4 * Math.ceil(points / chunk)).buffer);
    sizes.fill(chunk);
    if (points % chunk !== 0)
        sizes[sizes.length - 1] = points % chunk;
    return sizes;
}

/** A file that is open. It is made by `open`. */
export class LasFile {
    #source;
    #coder;
    #pool;
    #firsts; // the number of the first record of each chunk, and of all records
    #places; // the place of each chunk, and where the last ends
    #closed = false;

    /** The head of the plain file: of a packed file, its own without the laszip VLR. */
    head;
    /** The head as it stands in the file. */
    ownHead;
    /** Whether the points are packed. */
    isPacked;
    /** How many bytes the file has. */
    size;
    /** The points of a chunk; undefined if each chunk has a number of its own, or if the file is plain. */
    chunkSize;

    /** Opens a file. `options` has the bytes of the module, the number of workers, and a call that starts one. */
    static async open(it, { module, workers = 0, startWorker }) {
        if (!Number.isInteger(workers) || workers < 0 || workers > MAX_WORKERS)
            throw new RangeError(`workers is ${workers}, and not 0 to ${MAX_WORKERS}`);
        const file = new LasFile(), made = await compiled(module);
        file.#source = sourceOf(it);
        file.size = file.#source.size;
        file.#coder = await Coder.of(made);
        await file.#begin();
        if (file.#coder.memorySize > MUCH_MEMORY)
            file.#coder = await Coder.of(made);
        if (workers > 0)
            file.#pool = await Pool.of(workers, module, startWorker);
        return file;
    }

    async #begin() {
        const read = (from, to) => this.#read(from, to);
        const offset = this.#coder.need(await read(0, Math.min(this.size, FRONT)), this.size);
        const front = await read(0, offset);
        const raw = this.#coder.head(front, this.size);
        this.ownHead = new Head(front);
        this.isPacked = raw.chunk !== 0;
        this.chunkSize = raw.chunk === 0 || raw.chunk === COUNTED ? undefined : raw.chunk;
        if (this.isPacked) {
            const { sizes, counts } = await readTable(this.#coder, read, this.size, raw);
            this.head = plainHead(front, raw.laszipStart, raw.laszipLength);
            this.#firsts = sums(sizes, 0);
            this.#places = sums(counts, offset + 8);
        } else {
            this.head = this.ownHead;
            const sizes = evenSizes(raw.points, CHUNK);
            this.#firsts = sums(sizes, 0);
            this.#places = this.#firsts.map((it) => offset + it * raw.recordLength);
        }
    }

    #read(from, to) {
        if (this.#closed)
            throw new Stopped('the file is closed');
        return readFrom(this.#source, from, to);
    }

    /** The number of points. */
    get points() { return this.#firsts[this.#firsts.length - 1]; }

    /** The number of chunks; of a plain file, of pieces of 50,000 records. */
    get chunkCount() { return this.#firsts.length - 1; }

    /** The variable-length records, without the laszip VLR. */
    get vlrs() { return this.head.vlrs; }

    /** The scales of x, y and z. */
    get scale() { return this.head.scale; }

    /** The offsets of x, y and z. */
    get offset() { return this.head.coordinateOffset; }

    /** The least and the greatest x, y and z, as the header has them. */
    get box() { return this.head.box; }

    /** What the VLRs say of the coordinate reference system, each as a text. */
    get crs() { return this.head.crs; }

    /** Which records a chunk has, and how many bytes it takes: { from, to, bytes }. */
    chunk(number) {
        if (!Number.isInteger(number) || number < 0 || number >= this.chunkCount)
            throw new RangeError(`there is no chunk ${number}`);
        return { from: this.#firsts[number], to: this.#firsts[number + 1],
            bytes: this.#places[number + 1] - this.#places[number] };
    }

    get #layout() {
        const { format, extra, recordLength, scale, coordinateOffset } = this.head;
        return { format, extra, recordLength, scale, coordinateOffset };
    }

    // Has a job done, by a worker if there are any.
    async #job(job) {
        if (this.#closed)
            throw new Stopped('the file is closed');
        if (this.#pool !== undefined)
            return this.#pool.run(job, [job.bytes.buffer]);
        try {
            return jobDone(this.#coder, job);
        } catch (error) {
            throw jobError(error, job.chunk);
        }
    }

    // One chunk, with its records as bytes and its fields by these names, if any.
    async #chunkOf(number, layout, names) {
        const bytes = await this.#read(this.#places[number], this.#places[number + 1]);
        const { from, to } = this.chunk(number);
        const kind = this.isPacked ? 'unpack' : 'records';
        const done = await this.#job({ kind, layout, bytes, count: to - from, chunk: number, names });
        return { number, from, to, records: done.bytes, ...done.fields };
    }

    // The chunks that have these records, in order.
    #chunksOf(from, to, names) {
        const layout = this.#layout;
        if (from >= to)
            return inOrder([], 1);
        const file = this, first = lastUpTo(this.#firsts, from);
        function* each() {
            for (let number = first; number < file.chunkCount && file.#firsts[number] < to; number++)
                yield () => file.#chunkOf(number, layout, names);
        }
        return inOrder(each(), this.#window);
    }

    get #window() { return this.#pool === undefined ? 1 : 2 * this.#pool.size; }

    /**
     * The points chunk by chunk, those of the records from `from` on and before `to`. Only their chunks are read.
     * `fields` are the names of the arrays that are wanted; all if it is left out.
     */
    async* chunks({ from = 0, to = this.points, fields = FIELDS } = {}) {
        for (const value of [from, to])
            if (!Number.isInteger(value) || value < 0)
                throw new RangeError(`${value} is no number of a record`);
        const { recordLength } = this.head;
        for await (const chunk of this.#chunksOf(Math.min(from, this.points), Math.min(to, this.points), fields)) {
            const low = Math.max(from - chunk.from, 0), high = Math.min(to, chunk.to) - chunk.from;
            if (low > 0 || high < chunk.to - chunk.from)
                cut(chunk, low, high, recordLength);
            chunk.count = chunk.to - chunk.from;
            yield chunk;
        }
    }

    /** The plain file in parts, one after another, each as bytes: its head, and the records of each chunk. */
    async* plainParts() {
        yield this.head.bytes;
        for await (const { records } of this.#chunksOf(0, this.points, undefined))
            yield records;
    }

    /**
     * The packed file in parts, each as bytes and their place: `{ at, bytes }`. They stand one after another, but for
     * the last, which is the place of the chunk table, for eight bytes that are left free until then.
     */
    async* packedParts({ chunkSize = CHUNK } = {}) {
        if (!Number.isInteger(chunkSize) || chunkSize < 1 || chunkSize > MAX_CHUNK_POINTS)
            throw new RangeError(`chunkSize is ${chunkSize}, and not 1 to ${MAX_CHUNK_POINTS}`);
        if (this.isPacked)
            throw new TypeError('the file is packed already');
        const front = this.head.packed(this.#coder.payload(this.head, chunkSize));
        const counts = [];
        let at = front.length + 8;
        yield { at: 0, bytes: front };
        for await (const { bytes } of this.#packed(chunkSize)) {
            counts.push(bytes.length);
            yield { at, bytes };
            at += bytes.length;
        }
        yield { at, bytes: this.#coder.tableOf(Uint32Array.from(counts)) };
        const pointer = new Uint8Array(8);
        new DataView(pointer.buffer).setBigUint64(0, BigInt(at), true);
        yield { at: front.length, bytes: pointer };
    }

    // The chunks of the plain file, each of that many points.
    #packed(chunkSize) {
        const layout = this.#layout, file = this, { offset, recordLength } = this.head;
        function* each() {
            for (let from = 0; from < file.points; from += chunkSize) {
                const to = Math.min(from + chunkSize, file.points);
                yield async () => {
                    const bytes = await file.#read(offset + from * recordLength, offset + to * recordLength);
                    return file.#job({ kind: 'pack', layout, bytes });
                };
            }
        }
        return inOrder(each(), this.#window);
    }

    /** The plain file, byte for byte what `las laszip` unpacks. */
    async unpack() {
        const parts = [];
        for await (const part of this.plainParts())
            parts.push(new Blob([part]));
        return new Blob(parts, { type: 'application/octet-stream' });
    }

    /** The packed file, byte for byte what `las laszip` packs, in chunks of `chunkSize` points: 50,000 if left out. */
    async pack(options) {
        const parts = [];
        for await (const { bytes } of this.packedParts(options))
            parts.push(new Blob([bytes]));
        const pointer = parts.pop();
        parts.splice(1, 0, pointer);
        return new Blob(parts, { type: 'application/octet-stream' });
    }

    /** Ends the workers, and lets the memory go. It may be called again. */
    async close() {
        this.#closed = true;
        this.#coder = undefined;
        await this.#pool?.close();
    }
}

// Leaves only the records of a chunk from `low` on and before `high`.
function cut(chunk, low, high, recordLength) {
    for (const [name, list] of Object.entries(chunk)) {
        const width = name === 'records' ? recordLength : 1;
        if (ArrayBuffer.isView(list))
            chunk[name] = list.subarray(low * width, high * width);
    }
    chunk.to = chunk.from + high;
    chunk.from += low;
}

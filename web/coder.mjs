// The calls of c/las.h by a WebAssembly module. It runs in a page, in a worker and in Node.
import { OutOfMemory, Refused, Stopped, TABLE, newBytes } from './errors.mjs';

const DONE = 0, NO_MEMORY = 1, BAD = 2;
/** How many bytes at the front of a file are needed to find its head. */
export const FRONT = 227;
/** The chunk size of a file whose chunks have numbers of points of their own. */
export const COUNTED = 4294967295;
/** The most points of a chunk that is read or written. */
export const MAX_CHUNK_POINTS = 250000;
const MAX_PAYLOAD = 58;

// The number of chunks that a table tells, if it is long enough to tell one.
function countIn(table) {
    return table.length < 8 ? undefined : new DataView(table.buffer, table.byteOffset).getUint32(4, true);
}

/** One instance of the module. Its calls are made one at a time, and after one that traps no other is made. */
export class Coder {
    #exports;
    #start;
    #stopped = false;

    /** Over the exports of an instance. */
    constructor(exports) {
        this.#exports = exports;
        this.#start = Number(this.#call('laz_host_start'));
    }

    /** A new instance of a compiled module. */
    static async of(module) {
        let instance;
        try {
            instance = await WebAssembly.instantiate(module, {});
        } catch (fault) {
            if (fault instanceof RangeError)
                throw new OutOfMemory();
            throw fault;
        }
        return new Coder(instance.exports);
    }

    #call(name, ...words) {
        if (this.#stopped)
            throw new Stopped();
        // A call that traps leaves the memory half written.
        this.#stopped = true;
        let answer;
        try {
            answer = this.#exports[name](...words);
        } catch (trap) {
            throw new Stopped(`the module has stopped: ${trap.message}`, trap);
        }
        this.#stopped = false;
        return answer;
    }

    // Places for blocks of these sizes, one after another.
    #places(...sizes) {
        const places = [];
        let at = this.#start;
        for (const size of sizes) {
            places.push(at);
            at += Math.ceil(size / 16) * 16 + 16;
        }
        if (this.#call('laz_host_end', BigInt(at)) !== 1)
            throw new OutOfMemory();
        return places;
    }

    get #bytes() { return new Uint8Array(this.#exports.memory.buffer); }

    get #view() { return new DataView(this.#exports.memory.buffer); }

    /** How many bytes the memory of the module has. */
    get memorySize() { return this.#exports.memory.buffer.byteLength; }

    // Takes what a call answers; `cause` tells the number of the cause if the bytes are bad.
    #take(answer, cause) {
        if (answer === DONE)
            return;
        if (answer === NO_MEMORY)
            throw new OutOfMemory();
        if (answer === BAD)
            throw new Refused(cause());
        throw new TypeError('the module takes no such arguments');
    }

    /** How many bytes the head of a file of `size` bytes takes. `front` is its first 227 bytes, or all of fewer. */
    need(front, size) {
        const [bytes, offset, refusal] = this.#places(front.length, 4, 4);
        this.#bytes.set(front, bytes);
        const answer = this.#call('laz_c_need', bytes, BigInt(front.length), BigInt(size), offset, refusal);
        this.#take(answer, () => this.#view.getUint32(refusal, true));
        return this.#view.getUint32(offset, true);
    }

    /** What the head of a file of `size` bytes says. `front` is the bytes before its point data. */
    head(front, size) {
        const [bytes, out] = this.#places(front.length, 40);
        this.#bytes.set(front, bytes);
        const answer = this.#call('laz_c_head', bytes, BigInt(front.length), BigInt(size), out);
        const view = this.#view;
        const long = (at) => view.getUint32(out + at, true), short = (at) => view.getUint16(out + at, true);
        this.#take(answer, () => long(0));
        return {
            offset: long(4), points: long(8), chunk: long(12), vlrCount: long(16), laszipStart: long(20),
            laszipLength: short(24), headerSize: short(26), recordLength: short(28), extra: short(30),
            minor: view.getUint8(out + 32), format: view.getUint8(out + 33),
        };
    }

    /** How many chunks a table that begins with these bytes can have. */
    #chunks(table, chunk, points) {
        const first = table.subarray(0, 8);
        const [bytes] = this.#places(first.length);
        this.#bytes.set(first, bytes);
        return this.#call('laz_c_chunks', bytes, BigInt(first.length), chunk | 0, points | 0) >>> 0;
    }

    /** The numbers of points and of bytes of the chunks. `total` is the bytes from the first chunk to the table. */
    table(table, chunk, points, total) {
        const count = this.#chunks(table, chunk, points);
        // a table of another number of chunks is refused before there is room for a list of them
        if (chunk !== COUNTED && countIn(table) !== count)
            throw new Refused(TABLE);
        const [bytes, sizes, counts, refusal] = this.#places(table.length, 4 * count, 4 * count, 4);
        this.#bytes.set(table, bytes);
        const answer = this.#call('laz_c_table', bytes, BigInt(table.length), chunk | 0, points | 0, BigInt(total),
            sizes, BigInt(count), counts, BigInt(count), refusal);
        this.#take(answer, () => this.#view.getUint32(refusal, true));
        return { sizes: this.#numbers(sizes, count), counts: this.#numbers(counts, count) };
    }

    #numbers(at, count) {
        const list = newBytes(4 * count);
        list.set(this.#bytes.subarray(at, at + 4 * count));
        return new Uint32Array(list.buffer);
    }

    /** The records of a chunk: a view of the module's memory, which is good until the next call. */
    unpack({ format, extra, recordLength }, chunk, count) {
        const length = count * recordLength;
        const [bytes, records] = this.#places(chunk.length, length);
        this.#bytes.set(chunk, bytes);
        const answer = this.#call('laz_c_unpack', format, extra, bytes, BigInt(chunk.length), count, records,
            BigInt(length));
        this.#take(answer, () => 21);
        return this.#bytes.subarray(records, records + length);
    }

    /** The chunk of these records: a view of the module's memory, which is good until the next call. */
    pack({ format, extra, recordLength }, records) {
        const room = Number(this.#call('laz_c_room', format, extra, records.length / recordLength));
        const [bytes, chunk, written] = this.#places(records.length, room, 8);
        this.#bytes.set(records, bytes);
        const answer = this.#call('laz_c_pack', format, extra, bytes, BigInt(records.length), chunk, BigInt(room),
            written);
        this.#take(answer);
        return this.#written(chunk, written);
    }

    /** The payload of the laszip VLR, for chunks of a number of points. */
    payload({ format, extra }, chunk) {
        const [payload, written] = this.#places(MAX_PAYLOAD, 8);
        this.#take(this.#call('laz_c_vlr', format, extra, chunk | 0, payload, BigInt(MAX_PAYLOAD), written));
        return this.#written(payload, written).slice();
    }

    /** The chunk table of a file whose chunks have these numbers of bytes, and all but the last as many points. */
    tableOf(counts) {
        const room = Number(this.#call('laz_c_table_room', counts.length));
        const [list, table, written] = this.#places(4 * counts.length, room, 8);
        this.#bytes.set(new Uint8Array(counts.buffer, counts.byteOffset, counts.byteLength), list);
        const answer = this.#call('laz_c_table_of', 0, 0n, list, BigInt(counts.length), table, BigInt(room), written);
        this.#take(answer);
        return this.#written(table, written).slice();
    }

    #written(at, written) {
        return this.#bytes.subarray(at, at + Number(this.#view.getBigUint64(written, true)));
    }

    /** The most bytes that a chunk table of a number of chunks has. */
    tableRoom(chunks) { return Number(this.#call('laz_c_table_room', chunks)); }
}

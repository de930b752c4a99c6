// The head of a file: the public header block, the variable-length records and what follows up to the point data.

const VLR = 54;
const LASZIP = 'laszip encoded', LASZIP_RECORD = 22204;
const PROJECTION = 'LASF_Projection';
const WKT = 2112, KEYS = 34735, TEXTS = 34737;
// the keys of a GeoTIFF key directory that name a system by its EPSG number
const SYSTEMS = new Map([[2048, 'geographic'], [3072, 'projected'], [4096, 'vertical']]);

const decoder = new TextDecoder('utf-8');

// Text up to its first zero.
function text(bytes) {
    const end = bytes.indexOf(0);
    return decoder.decode(end < 0 ? bytes : bytes.subarray(0, end));
}

/** The head of a file, as bytes. A head does not change. */
export class Head {
    #view;

    /** Over the bytes before the point data of a file that the coder has accepted. */
    constructor(bytes) {
        this.bytes = bytes;
        this.#view = new DataView(bytes.buffer, bytes.byteOffset, bytes.byteLength);
    }

    #doubles(...places) { return places.map((at) => this.#view.getFloat64(at, true)); }

    /** The minor version: 0 to 4. */
    get minor() { return this.bytes[25]; }

    /** The version, as '1.2'. */
    get version() { return `${this.bytes[24]}.${this.bytes[25]}`; }

    /** The header size, in bytes. */
    get headerSize() { return this.#view.getUint16(94, true); }

    /** The offset to the point data, in bytes. */
    get offset() { return this.bytes.length; }

    /** The point data format: 0 to 3. */
    get format() { return this.bytes[104] & 127; }

    /** The length of a point record, in bytes. */
    get recordLength() { return this.#view.getUint16(105, true); }

    /** The number of extra bytes of a point record: 0 to 192. */
    get extra() { return this.recordLength - [20, 28, 26, 34][this.format]; }

    /** The number of points: below 2^32. */
    get points() {
        const short = this.#view.getUint32(107, true);
        return this.minor === 4 && short === 0 ? Number(this.#view.getBigUint64(247, true)) : short;
    }

    /** The numbers of points by return that the header has, for the returns 1 to 5. */
    get returns() { return [0, 1, 2, 3, 4].map((i) => this.#view.getUint32(111 + 4 * i, true)); }

    /** Those for the returns 1 to 15, as BigInt, of LAS 1.4; else undefined. */
    get longReturns() {
        if (this.minor !== 4)
            return undefined;
        return Array.from({ length: 15 }, (_, i) => this.#view.getBigUint64(255 + 8 * i, true));
    }

    /** The scales of x, y and z. */
    get scale() { return this.#doubles(131, 139, 147); }

    /** The offsets of x, y and z. */
    get coordinateOffset() { return this.#doubles(155, 163, 171); }

    /** The least and the greatest x, y and z, as the header has them. */
    get box() { return { min: this.#doubles(187, 203, 219), max: this.#doubles(179, 195, 211) }; }

    get fileSourceId() { return this.#view.getUint16(4, true); }

    get globalEncoding() { return this.#view.getUint16(6, true); }

    /** What wrote the points. */
    get systemIdentifier() { return text(this.bytes.subarray(26, 58)); }

    /** The generating software. */
    get software() { return text(this.bytes.subarray(58, 90)); }

    /** The day on which the file was made: a year, and a day of that year from 1; undefined if both are 0. */
    get created() {
        const day = this.#view.getUint16(90, true), year = this.#view.getUint16(92, true);
        return day === 0 && year === 0 ? undefined : { year, day };
    }

    /** Where the VLRs begin and end. */
    get vlrPlaces() {
        const places = [];
        let at = this.headerSize;
        for (let i = this.#view.getUint32(100, true); i > 0; i--) {
            const end = at + VLR + this.#view.getUint16(at + 20, true);
            places.push([at, end]);
            at = end;
        }
        return places;
    }

    /** The variable-length records. */
    get vlrs() {
        return this.vlrPlaces.map(([at, end]) => ({
            userId: text(this.bytes.subarray(at + 2, at + 18)),
            userIdBytes: this.bytes.slice(at + 2, at + 18),
            recordId: this.#view.getUint16(at + 18, true),
            description: text(this.bytes.subarray(at + 22, at + 54)),
            payload: this.bytes.slice(at + VLR, end),
        }));
    }

    /** What the VLRs say of the coordinate reference system: EPSG numbers, names and WKT, each as a text. */
    get crs() {
        const texts = [];
        for (const { userId, recordId, payload } of this.vlrs) {
            if (userId !== PROJECTION)
                continue;
            if (recordId === WKT)
                texts.push(text(payload));
            else if (recordId === TEXTS)
                texts.push(...text(payload).split('|'));
            else if (recordId === KEYS)
                texts.push(...systemsOf(payload));
        }
        return texts.map((it) => it.trim()).filter((it) => it !== '');
    }

    /** The bytes before the point data of the packed file: with the laszip VLR of this payload after all other VLRs. */
    packed(payload) {
        const places = this.vlrPlaces;
        const end = places.length > 0 ? places[places.length - 1][1] : this.headerSize;
        const size = VLR + payload.length;
        const bytes = new Uint8Array(this.bytes.length + size);
        bytes.set(this.bytes.subarray(0, end));
        bytes.set(laszipVlr(payload), end);
        bytes.set(this.bytes.subarray(end), end + size);
        return changed(bytes, places.length + 1, this.format | 128);
    }
}

/** The head of the plain file, out of the bytes before the point data of a packed one. */
export function plainHead(bytes, laszipStart, laszipLength) {
    const size = VLR + laszipLength;
    const plain = new Uint8Array(bytes.length - size);
    plain.set(bytes.subarray(0, laszipStart));
    plain.set(bytes.subarray(laszipStart + size), laszipStart);
    const count = new DataView(bytes.buffer, bytes.byteOffset).getUint32(100, true);
    return new Head(changed(plain, count - 1, bytes[104] & 127));
}

function changed(bytes, vlrs, format) {
    const view = new DataView(bytes.buffer);
    view.setUint32(96, bytes.length, true);
    view.setUint32(100, vlrs, true);
    bytes[104] = format;
    return bytes;
}

function laszipVlr(payload) {
    const encoder = new TextEncoder();
    const bytes = new Uint8Array(VLR + payload.length), view = new DataView(bytes.buffer);
    bytes.set(encoder.encode(LASZIP), 2);
    view.setUint16(18, LASZIP_RECORD, true);
    view.setUint16(20, payload.length, true);
    bytes.set(encoder.encode('laszip version 2 items'), 22);
    bytes.set(payload, VLR);
    return bytes;
}

// The EPSG numbers in a GeoTIFF key directory: entries of a key, where its value stands, a count, and the value.
function systemsOf(payload) {
    const view = new DataView(payload.buffer, payload.byteOffset, payload.byteLength), found = [];
    for (let at = 8; at + 8 <= payload.length; at += 8) {
        const kind = SYSTEMS.get(view.getUint16(at, true)), value = view.getUint16(at + 6, true);
        if (kind !== undefined && view.getUint16(at + 2, true) === 0 && value > 0 && value < 32767)
            found.push(`EPSG:${value} (${kind})`);
    }
    return found;
}

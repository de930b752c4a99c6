/** Where a file comes from: bytes, a Blob, or anything that has `size` and `slice` as a Blob. */
export type Source = ArrayBuffer | ArrayBufferView | Blob | {
    /** The number of bytes. */
    readonly size: number;
    /** The bytes from one place on and before another. */
    slice(from: number, to: number): { arrayBuffer(): Promise<ArrayBuffer> };
};

/** What is a `Worker` in a page, or that of `node:worker_threads`. */
export interface AnyWorker {
    postMessage(data: unknown, rooms?: unknown): void;
    terminate(): unknown;
}

export interface OpenOptions {
    /** The bytes of laz.wasm; if it is left out, those that stand beside laz.mjs. */
    module?: BufferSource;
    /** How many workers pack and unpack chunks side by side: 0 to 64. With 0, the default, the caller's thread does. */
    workers?: number;
    /** Starts a worker that runs worker_start.mjs; if it is left out, the one beside laz.mjs. */
    startWorker?: () => AnyWorker | Promise<AnyWorker>;
}

export interface PackOptions {
    /** The points of a chunk: 1 to 250000. 50000 if it is left out. */
    chunkSize?: number;
}

/** The names of the causes for which a file is refused. The number of a cause is its place, from 1. */
export const CAUSES: readonly string[];
/** The points of a chunk that is packed, if none is said: 50000. */
export const CHUNK: number;
/** The most points of a chunk: 250000. */
export const MAX_CHUNK_POINTS: number;
/** The most workers of a file: 64. */
export const MAX_WORKERS: number;
/** The names of the arrays of a chunk. */
export const FIELDS: readonly Field[];

/** A file is not one that is read here, or not whole. */
export class Refused extends Error {
    /** The number of the cause: 1 to 27. */
    number: number;
    /** The name of the cause, as `Trailing`. */
    cause: string;
    /** The number of the first bad chunk, from 0, if the cause is `BadChunk`; else undefined. */
    chunk: number | undefined;
}
/** There is not enough memory: of the module, which has at most 4 GiB, or of the engine. */
export class OutOfMemory extends Error {}
/** The file is closed, or a call of the module has trapped. */
export class Stopped extends Error {}
/** The bytes of a file could not be read, or there were fewer than its size says. */
export class ReadFault extends Error {}

export interface Vlr {
    /** The user ID as text, zeros at the end left out. */
    userId: string;
    /** The user ID as its 16 bytes. */
    userIdBytes: Uint8Array;
    /** The record ID: 0 to 65535. */
    recordId: number;
    /** The description, zeros at the end left out. */
    description: string;
    /** What the record holds: at most 65535 bytes. */
    payload: Uint8Array;
}

type Three = [number, number, number];

/** The head of a file. */
export class Head {
    /** The bytes before the point data. */
    readonly bytes: Uint8Array;
    /** The minor version: 0 to 4. */
    readonly minor: number;
    /** The version, as '1.2'. */
    readonly version: string;
    /** The header size, in bytes. */
    readonly headerSize: number;
    /** The offset to the point data, in bytes. */
    readonly offset: number;
    /** The point data format: 0 to 3. */
    readonly format: number;
    /** The length of a point record, in bytes. */
    readonly recordLength: number;
    /** The number of extra bytes of a point record: 0 to 192. */
    readonly extra: number;
    /** The number of points: below 2^32. */
    readonly points: number;
    /** The numbers of points by return that the header has, for the returns 1 to 5. */
    readonly returns: number[];
    /** Those for the returns 1 to 15 of LAS 1.4; else undefined. */
    readonly longReturns: bigint[] | undefined;
    /** The scales of x, y and z. */
    readonly scale: Three;
    /** The offsets of x, y and z. */
    readonly coordinateOffset: Three;
    /** The least and the greatest x, y and z, as the header has them. */
    readonly box: { min: Three; max: Three };
    readonly fileSourceId: number;
    readonly globalEncoding: number;
    /** What wrote the points. */
    readonly systemIdentifier: string;
    /** The generating software. */
    readonly software: string;
    /** The day on which the file was made: a year, and a day of that year from 1; undefined if both are 0. */
    readonly created: { year: number; day: number } | undefined;
    /** The variable-length records. */
    readonly vlrs: Vlr[];
    /** What the VLRs say of the coordinate reference system: EPSG numbers, names and WKT, each as a text. */
    readonly crs: string[];
}

export type Field = 'X' | 'Y' | 'Z' | 'x' | 'y' | 'z' | 'intensity' | 'returnNumber' | 'numberOfReturns'
    | 'scanDirectionFlag' | 'edgeOfFlightLine' | 'classification' | 'classFlags' | 'scanAngleRank' | 'userData'
    | 'pointSourceId' | 'gpsTime' | 'red' | 'green' | 'blue';

/** The points of a chunk, or of the part of it that was asked for. An array has an entry for each point. */
export interface Chunk {
    /** The number of the chunk, from 0. */
    number: number;
    /** The number of its first record in the file, from 0. */
    from: number;
    /** The number of the record after its last one. */
    to: number;
    /** The number of points: `to - from`. */
    count: number;
    /** The point records as they stand in a plain file. */
    records: Uint8Array;
    /** Raw coordinates, before scale and offset. */
    X?: Int32Array;
    Y?: Int32Array;
    Z?: Int32Array;
    /** Coordinates: raw ones times the scale, and the offset added. */
    x?: Float64Array;
    y?: Float64Array;
    z?: Float64Array;
    intensity?: Uint16Array;
    /** 0 to 7. */
    returnNumber?: Uint8Array;
    /** 0 to 7. */
    numberOfReturns?: Uint8Array;
    /** 0 or 1. */
    scanDirectionFlag?: Uint8Array;
    /** 0 or 1. */
    edgeOfFlightLine?: Uint8Array;
    /** The class: 0 to 31. */
    classification?: Uint8Array;
    /** Bit 0 synthetic, bit 1 key-point, bit 2 withheld. */
    classFlags?: Uint8Array;
    /** The scan angle rank, in degrees: -128 to 127. */
    scanAngleRank?: Int8Array;
    userData?: Uint8Array;
    pointSourceId?: Uint16Array;
    /** The GPS time, of the formats 1 and 3. */
    gpsTime?: Float64Array;
    /** Colours, of the formats 2 and 3. */
    red?: Uint16Array;
    green?: Uint16Array;
    blue?: Uint16Array;
}

/** A file that is open. */
export class LasFile {
    /** The head of the plain file: of a packed file, its own without the laszip VLR. */
    readonly head: Head;
    /** The head as it stands in the file. */
    readonly ownHead: Head;
    /** Whether the points are packed. */
    readonly isPacked: boolean;
    /** How many bytes the file has. */
    readonly size: number;
    /** The points of a chunk; undefined if each chunk has a number of its own, or if the file is plain. */
    readonly chunkSize: number | undefined;
    /** The number of points. */
    readonly points: number;
    /** The number of chunks; of a plain file, of pieces of 50000 records. */
    readonly chunkCount: number;
    /** As those of `head`: */
    readonly vlrs: Vlr[];
    readonly scale: Three;
    readonly offset: Three;
    readonly box: { min: Three; max: Three };
    readonly crs: string[];
    /** Which records a chunk has, and how many bytes it takes in the file. */
    chunk(number: number): { from: number; to: number; bytes: number };
    /**
     * The points chunk by chunk, in order: those of the records from `from` on and before `to`, both counted from 0;
     * all if they are left out. Only the chunks that have these records are read. `fields` are the arrays that are
     * wanted; all if it is left out.
     */
    chunks(options?: { from?: number; to?: number; fields?: readonly Field[] }): AsyncGenerator<Chunk>;
    /** The plain file in parts, one after another: its head, and the records of each chunk. */
    plainParts(): AsyncGenerator<Uint8Array>;
    /** The packed file of a plain one in parts, each with its place in the file; the last part is not at the end. */
    packedParts(options?: PackOptions): AsyncGenerator<{ at: number; bytes: Uint8Array }>;
    /** The plain file, byte for byte the one that `las laszip` writes. */
    unpack(): Promise<Blob>;
    /** The packed file of a plain one, byte for byte the one that `las laszip` writes. */
    pack(options?: PackOptions): Promise<Blob>;
    /** Ends the workers, and lets the memory go. It may be called again. */
    close(): Promise<void>;
}

/** Opens a LAS or LAZ file. What it holds decides, and not its name. Only its head and its chunk table are read. */
export function open(file: Source, options?: OpenOptions): Promise<LasFile>;
/** The plain file of a packed or a plain one. */
export function unpack(file: Source, options?: OpenOptions): Promise<Blob>;
/** The packed file of a plain one. */
export function pack(file: Source, options?: OpenOptions & PackOptions): Promise<Blob>;

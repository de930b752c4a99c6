// What goes wrong. The numbers and names of causes are those of c/las.h and of the package for Python.

/** The names of the causes for which a file is refused. The number of a cause is its place, from 1. */
export const CAUSES = Object.freeze([
    'Short', 'Magic', 'Version', 'HeaderSize', 'Offset', 'Vlrs', 'Format', 'RecordLength', 'Count', 'Trailing',
    'StrayVlr', 'NoVlr', 'VlrShape', 'Compressor', 'Items', 'ChunkSize', 'TooManyChunks', 'TablePointer', 'Table',
    'ChunkSum', 'BadChunk', 'RawRange', 'TooManyParts', 'PointSum', 'Extended', 'PointCounts', 'NotPacked']);

export const TABLE_POINTER = 18, TABLE = 19, BAD_CHUNK = 21;

/** A file is not one that is read here, or not whole. */
export class Refused extends Error {
    constructor(number, chunk) {
        super(`${number} ${CAUSES[number - 1]}` + (chunk === undefined ? '' : ` ${chunk}`));
        this.name = 'Refused';
        this.number = number;
        this.cause = CAUSES[number - 1];
        this.chunk = chunk;
    }
}

/** There is not enough memory: of the module, or of the engine. */
export class OutOfMemory extends Error {
    constructor(what = 'out of memory') {
        super(what);
        this.name = 'OutOfMemory';
    }
}

/** A call of the module has trapped, or its file was closed: nothing can be asked of it any more. */
export class Stopped extends Error {
    constructor(what = 'the module has stopped', trap = undefined) {
        super(what);
        this.name = 'Stopped';
        if (trap !== undefined)
            this.cause = trap;
    }
}

/** The bytes of a file could not be read, or there were fewer than its size says. */
export class ReadFault extends Error {
    constructor(what = 'the file can\'t be read, or was changed meanwhile', fault = undefined) {
        super(what);
        this.name = 'ReadFault';
        if (fault !== undefined)
            this.cause = fault;
    }
}

// An error as data that can be posted from a worker, and back.
export function errorData(error) {
    return { name: error.name, message: error.message, number: error.number, chunk: error.chunk };
}

export function errorFrom({ name, message, number, chunk }) {
    if (name === 'Refused')
        return new Refused(number, chunk);
    const kinds = { OutOfMemory, Stopped, ReadFault, TypeError, RangeError };
    return new (kinds[name] ?? Error)(message);
}

/** New bytes, or `OutOfMemory`. */
export function newBytes(length) {
    try {
        return new Uint8Array(length);
    } catch {
        throw new OutOfMemory(`out of memory: there is no room for ${length} bytes`);
    }
}

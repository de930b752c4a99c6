// Reads and writes LAS and LAZ files, by the proved coder of `las` as a WebAssembly module: in a page, in a worker and
// in Node. docs/web.md tells how it is used, and laz.d.mts has its types.
import { moduleBytes, startWorker } from './engine.mjs';
import { LasFile } from './file.mjs';

export { CHUNK } from './file.mjs';
export { CAUSES, OutOfMemory, ReadFault, Refused, Stopped } from './errors.mjs';
export { MAX_CHUNK_POINTS } from './coder.mjs';
export { MAX_WORKERS } from './pool.mjs';
export { FIELDS } from './points.mjs';
export { Head } from './head.mjs';
export { LasFile };

/**
 * Opens a LAS or LAZ file: bytes, or a Blob, or anything with `size` and `slice` as a Blob has them. What the file
 * holds decides, and not its name. Only its head and its chunk table are read.
 */
export async function open(file, options = {}) {
    const module = options.module ?? await moduleBytes();
    return LasFile.open(file, { workers: 0, startWorker, ...options, module });
}

async function once(file, options, call) {
    const opened = await open(file, options);
    try {
        return await call(opened);
    } finally {
        await opened.close();
    }
}

/** The plain file of a packed or a plain one, as a Blob. */
export function unpack(file, options = {}) {
    return once(file, options, (it) => it.unpack());
}

/** The packed file of a plain one, as a Blob. */
export function pack(file, options = {}) {
    return once(file, options, (it) => it.pack(options));
}

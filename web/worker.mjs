// What a worker does: unpacks and packs chunks as it is told, one at a time. It runs as a module of a page or of Node,
// and as the text of a blob in the page web/viewer.html.
import { Coder } from './coder.mjs';
import { OutOfMemory, Refused, errorData, BAD_CHUNK } from './errors.mjs';
import { fieldsOf } from './points.mjs';

let coder;

// Does one job. The answer has no memory of the module's.
export function jobDone(coder, { kind, layout, bytes, count, names }) {
    if (kind === 'pack')
        return { bytes: copied(coder.pack(layout, bytes)) };
    const records = kind === 'records' ? bytes : coder.unpack(layout, bytes, count);
    if (names === undefined)
        return { bytes: copied(records) };
    return { fields: fieldsOf(records, layout, names), bytes: copied(records) };
}

// What an error of a job is told as: with the number of its chunk, and with the name of the error if memory ran out.
export function jobError(error, chunk) {
    if (error instanceof Refused && error.number === BAD_CHUNK)
        return new Refused(BAD_CHUNK, chunk);
    return error instanceof RangeError ? new OutOfMemory() : error;
}

function copied(bytes) {
    try {
        return bytes.slice();
    } catch {
        throw new OutOfMemory(`out of memory: there is no room for ${bytes.length} bytes`);
    }
}

async function answer(data) {
    if (data.module !== undefined) {
        coder = await Coder.of(await WebAssembly.compile(data.module));
        return {};
    }
    return jobDone(coder, data);
}

// Takes jobs from `port`, which has `postMessage`.
export async function takeJob(port, data) {
    try {
        const done = await answer(data);
        const rooms = [done.bytes, ...Object.values(done.fields ?? {})].filter((it) => it !== undefined);
        port.postMessage({ id: data.id, done }, rooms.map((it) => it.buffer));
    } catch (error) {
        port.postMessage({ id: data.id, error: errorData(jobError(error, data.chunk)) });
    }
}

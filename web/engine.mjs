// Where the module and its workers come from, in a page or in Node, if they are not given.

const isNode = typeof process !== 'undefined' && process.versions?.node !== undefined;

async function inNode(name) {
    const { readFile } = await import('node:fs/promises');
    const { gunzipSync } = await import('node:zlib');
    try {
        return new Uint8Array(await readFile(new URL(`./${name}`, import.meta.url)));
    } catch (fault) {
        if (fault.code !== 'ENOENT')
            throw fault;
    }
    return new Uint8Array(gunzipSync(await readFile(new URL(`../release/${name}.gz`, import.meta.url))));
}

async function inPage(name) {
    const answer = await fetch(new URL(`./${name}`, import.meta.url));
    if (!answer.ok)
        throw new Error(`${name} can't be fetched: ${answer.status}`);
    return new Uint8Array(await answer.arrayBuffer());
}

let bytes;

/** The bytes of the module laz.wasm, which stands beside this file; in a checkout, packed in release/. */
export function moduleBytes() {
    bytes ??= (isNode ? inNode : inPage)('laz.wasm').catch((fault) => {
        bytes = undefined;
        throw fault;
    });
    return bytes;
}

/** Starts a worker. */
export async function startWorker() {
    const place = new URL('./worker_start.mjs', import.meta.url);
    if (!isNode)
        return new Worker(place, { type: 'module' });
    const { Worker: NodeWorker } = await import('node:worker_threads');
    return new NodeWorker(place);
}

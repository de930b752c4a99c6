// What the page's worker does with one file: decodes it and posts its points as they come, counts what is in it, sums
// its bytes, shows a record, and makes the file that is saved.
import { OutOfMemory, Refused } from '../errors.mjs';
import { LasFile, compiled } from '../file.mjs';
import { FIELDS } from '../points.mjs';
import { Summary, reportText } from '../report.mjs';
import { Sha256 } from './sha256.mjs';

// The most points that are drawn; of a larger file every n-th is taken.
const MOST_POINTS = 3000000;
// How many points are posted at a time, but the first time, so that there is a picture soon.
const BATCH = 50000;
const READ_AT_ONCE = 2 ** 22;
const DRAWN = ['X', 'Y', 'Z', 'x', 'y', 'z', 'classification', 'returnNumber', 'intensity', 'pointSourceId', 'red',
    'green', 'blue'];

let module, file, blob, origin;

function faultOf(error) {
    const { name, message, number, cause, chunk } = error;
    return error instanceof Refused ? { name, message, number, cause, chunk } : { name, message };
}

// Points on their way to the page.
class Batch {
    constructor(hasColours) {
        this.hasColours = hasColours;
        this.parts = [];
        this.count = 0;
    }

    // Adds the records of a chunk whose numbers are multiples of `step`.
    add(chunk, step) {
        const first = (step - chunk.from % step) % step, count = Math.max(0, Math.ceil((chunk.count - first) / step));
        const part = {
            count, positions: new Float32Array(3 * count), classes: new Uint8Array(count),
            returns: new Uint8Array(count), intensities: new Uint16Array(count), sources: new Uint16Array(count),
            colours: this.hasColours ? new Uint16Array(3 * count) : undefined,
        };
        for (let i = 0, k = first; i < count; i++, k += step) {
            part.positions[3 * i] = chunk.x[k] - origin[0];
            part.positions[3 * i + 1] = chunk.y[k] - origin[1];
            part.positions[3 * i + 2] = chunk.z[k] - origin[2];
            part.classes[i] = chunk.classification[k];
            part.returns[i] = chunk.returnNumber[k];
            part.intensities[i] = chunk.intensity[k];
            part.sources[i] = chunk.pointSourceId[k];
            if (this.hasColours) {
                part.colours[3 * i] = chunk.red[k];
                part.colours[3 * i + 1] = chunk.green[k];
                part.colours[3 * i + 2] = chunk.blue[k];
            }
        }
        this.parts.push(part);
        this.count += count;
    }

    // All of it in one list a field, and empty again.
    take() {
        const taken = { count: this.count };
        for (const [name, kind, width] of [['positions', Float32Array, 3], ['classes', Uint8Array, 1],
            ['returns', Uint8Array, 1], ['intensities', Uint16Array, 1], ['sources', Uint16Array, 1],
            ['colours', Uint16Array, 3]]) {
            if (name === 'colours' && !this.hasColours)
                continue;
            taken[name] = new kind(width * this.count);
            let at = 0;
            for (const part of this.parts) {
                taken[name].set(part[name], at);
                at += part[name].length;
            }
        }
        this.parts = [];
        this.count = 0;
        return taken;
    }
}

const buffersOf = (points) => Object.values(points).filter((it) => ArrayBuffer.isView(it)).map((it) => it.buffer);

// What the page shows of the head.
function headOf(file, step) {
    const { head, ownHead } = file;
    return {
        version: head.version, format: head.format, recordLength: head.recordLength, extra: head.extra,
        points: file.points, isPacked: file.isPacked, chunkSize: file.chunkSize, chunkCount: file.chunkCount,
        size: file.size, step, origin,
        headerSize: head.headerSize, offset: ownHead.offset, scale: file.scale, coordinateOffset: file.offset,
        box: file.box, crs: file.crs, returns: head.returns, longReturns: head.longReturns?.map(Number),
        software: head.software,
        system: head.systemIdentifier, created: head.created, fileSourceId: head.fileSourceId,
        globalEncoding: head.globalEncoding,
        vlrs: ownHead.vlrs.map(({ userId, recordId, description, payload }) =>
            ({ userId, recordId, description, length: payload.length })),
    };
}

// The corner that positions are told from: the least of the box of the head, if that is a place, else the first point.
async function originOf(file) {
    const { min, max } = file.box;
    if (min.every((low, i) => Number.isFinite(low) && low <= max[i] && Math.abs(max[i]) < 1e12))
        return min;
    for await (const { x, y, z } of file.chunks({ from: 0, to: 1, fields: ['x', 'y', 'z'] }))
        return [x[0], y[0], z[0]];
    return [0, 0, 0];
}

async function decode() {
    const step = Math.max(1, Math.ceil(file.points / MOST_POINTS)), summary = new Summary(), plain = new Sha256();
    let fault;
    try {
        origin = await originOf(file);
    } catch (error) {
        origin = [0, 0, 0];
        fault = faultOf(error);
    }
    postMessage({ kind: 'head', head: headOf(file, step) });
    plain.update(file.head.bytes);
    const batch = new Batch(file.head.format >= 2);
    let last = 0;
    const post = (done) => {
        const points = batch.take();
        postMessage({ kind: 'points', points, done, of: file.points }, buffersOf(points));
        last = performance.now();
    };
    try {
        for await (const chunk of file.chunks({ fields: DRAWN })) {
            batch.add(chunk, step);
            if (batch.count >= BATCH || performance.now() - last > 100)
                post(chunk.to);
            // the page draws while these are made
            summary.add(chunk);
            plain.update(chunk.records);
        }
    } catch (error) {
        fault = faultOf(error);
    }
    post(summary.points);
    const whole = fault ? {} : { report: reportText(file, summary), plainSum: plain.digest() };
    postMessage({ kind: 'counted', fault, summary: { ...summary }, ...whole });
    postMessage({ kind: 'sum', fileSum: await sumOf(blob) });
}

// The digest of the bytes of a file.
async function sumOf(blob) {
    const sum = new Sha256();
    for (let at = 0; at < blob.size; at += READ_AT_ONCE)
        sum.update(new Uint8Array(await blob.slice(at, Math.min(blob.size, at + READ_AT_ONCE)).arrayBuffer()));
    return sum.digest();
}

async function record(number) {
    for await (const chunk of file.chunks({ from: number, to: number + 1 })) {
        const fields = {};
        for (const name of FIELDS)
            if (chunk[name] !== undefined)
                fields[name] = chunk[name][0];
        const extra = chunk.records.slice(chunk.records.length - file.head.extra);
        return { number, chunk: chunk.number, fields, extra };
    }
    throw new RangeError(`there is no record ${number}`);
}

async function save(form) {
    if ((form === 'laz') === file.isPacked)
        return blob;
    return form === 'laz' ? file.pack() : file.unpack();
}

async function serve(data) {
    if (data.kind === 'prepare') {
        module = data.module;
        await compiled(module);
    } else if (data.kind === 'open') {
        blob = data.blob;
        file = await LasFile.open(blob, { module });
        await decode();
    } else if (data.kind === 'record')
        postMessage({ kind: 'record', id: data.id, record: await record(data.number) });
    else
        postMessage({ kind: 'saved', id: data.id, blob: await save(data.form) });
}

export function startReader(port) {
    port.onmessage = async ({ data }) => {
        try {
            await serve(data);
        } catch (error) {
            const known = error instanceof RangeError && data.kind === 'open' ? new OutOfMemory() : error;
            port.postMessage({ kind: 'fault', id: data.id, fault: faultOf(known) });
        }
    };
}

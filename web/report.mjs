// What is in a file, counted over its records: the report of `las lasinfo`.

const BINS = 32;

/** Counts over the records of a file, a chunk at a time. */
export class Summary {
    points = 0;
    /** How many records have each return number: 0 to 7. */
    returns = new Float64Array(8);
    /** How many records have each class: 0 to 31. */
    classes = new Float64Array(BINS);
    /** The least and the greatest raw X, Y and Z. */
    min = [Infinity, Infinity, Infinity];
    max = [-Infinity, -Infinity, -Infinity];

    /** Adds the records of a chunk: X, Y, Z, returnNumber and classification are read. */
    add(chunk) {
        for (const [axis, name] of ['X', 'Y', 'Z'].entries())
            this.#range(axis, chunk[name]);
        for (const number of chunk.returnNumber)
            this.returns[number]++;
        for (const number of chunk.classification)
            this.classes[number]++;
        this.points += chunk.classification.length;
    }

    #range(axis, raw) {
        let low = this.min[axis], high = this.max[axis];
        for (let i = 0; i < raw.length; i++) {
            const value = raw[i];
            if (value < low)
                low = value;
            if (value > high)
                high = value;
        }
        this.min[axis] = low;
        this.max[axis] = high;
    }
}

const hex = (bytes) => Array.from(bytes, (byte) => byte.toString(16).padStart(2, '0')).join('');

// The lines that the head of a file gives, as it stands in the file.
function headLines(file) {
    const head = file.ownHead;
    const lines = [`version ${head.version}`, `header ${head.headerSize}`, `offset ${head.offset}`,
        `vlrs ${head.vlrs.length}`];
    for (const { userIdBytes, recordId, payload } of head.vlrs)
        lines.push(`vlr ${hex(userIdBytes)} ${recordId} ${payload.length}`);
    lines.push(`format ${head.format}`, `length ${head.recordLength}`, `points ${head.points}`);
    lines.push(file.isPacked ? `packed ${file.chunkSize ?? 4294967295} ${file.chunkCount}` : 'packed no');
    lines.push(`header returns ${head.returns.join(' ')}`);
    if (head.longReturns !== undefined)
        lines.push(`long returns ${head.longReturns.join(' ')}`);
    return lines;
}

/** The report, as `las lasinfo -i FILE` prints it, of a file and the counts over all of its records. */
export function reportText(file, summary) {
    const lines = [...headLines(file), `record returns ${Array.from(summary.returns.slice(1, 6)).join(' ')}`];
    if (summary.points > 0)
        for (const [axis, name] of ['x', 'y', 'z'].entries())
            lines.push(`raw ${name} ${summary.min[axis]} ${summary.max[axis]}`);
    return `${lines.join('\n')}\n`;
}

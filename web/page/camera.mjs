// From where points are seen: parallel lines of sight, so that a metre is as long everywhere.

export class Camera {
    turn = -0.5; // around the vertical, in radians
    tilt = 0.9; // from straight down, in radians
    zoom = 1;
    shift = [0, 0]; // of the picture, in pixels of CSS
    rise = 1; // of heights

    /** The box that is looked at, whose centre is the centre of the picture. */
    box = { min: [0, 0, 0], max: [1, 1, 1] };

    reset() {
        Object.assign(this, { turn: -0.5, tilt: 0.9, zoom: 1, shift: [0, 0] });
    }

    fromAbove() {
        Object.assign(this, { turn: 0, tilt: 0, zoom: 1, shift: [0, 0] });
    }

    /**
     * How a position is seen in a picture of so many pixels: three rows of four numbers, which give the pixel from the
     * left, the pixel from the top, and the depth, greater for what is farther.
     */
    rows(width, height, flat = false) {
        const { min, max } = this.box, tilt = flat ? 0 : this.tilt;
        const centre = [0, 1, 2].map((i) => (min[i] + max[i]) / 2), size = [0, 1, 2].map((i) => max[i] - min[i]);
        const [c, s] = [Math.cos(this.turn), Math.sin(this.turn)], [ct, st] = [Math.cos(tilt), Math.sin(tilt)];
        const across = Math.abs(size[0] * c) + Math.abs(size[1] * s);
        const along = Math.abs(size[0] * s) + Math.abs(size[1] * c);
        const tall = along * ct + size[2] * st * this.rise;
        const scale = this.zoom * Math.min(0.94 * width / (across || 1), 0.94 * height / (tall || 1));
        const directions = [[c * scale, -s * scale, 0],
            [-s * ct * scale, -c * ct * scale, -st * this.rise * scale],
            [s * st * scale, c * st * scale, -ct * this.rise * scale]];
        const ends = [width / 2 + this.shift[0], height / 2 + this.shift[1], 0];
        return directions.map((row, i) => [...row, ends[i] - row.reduce((sum, it, k) => sum + it * centre[k], 0)]);
    }
}

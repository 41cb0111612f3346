// The time axis: where a second stands on it, and which seconds are named below it. It is that of
// the program's own picture (hosts/rust/src/picture/axis.rs).
//
// Windows are some seconds wide and may lie years apart. So the axis is broken where nothing was
// said for long: it consists of pieces of one scale, with the gaps between them left out.

import { DAY, yearOf, yearStart } from "./dates.js";

/** The windows take at least one part in so many of the pieces. */
const SPARSEST = 16n;

const length = ([first, last]) => last - first;
const sum = (numbers) => numbers.reduce((all, number) => all + number, 0n);
const larger = (one, other) => (one > other ? one : other);
const byNumber = (one, other) => (one < other ? -1 : Number(one > other));

/** So much of a room, which is a number, as a part is of the whole. */
const scaled = (part, whole, room) => Number((part * BigInt(Math.round(room * 100))) / whole) / 100;

/** The parts of time that some window covers, in order. */
function merged(windows) {
    const parts = [];
    for (const [first, last] of [...windows].sort((a, b) => byNumber(a[0], b[0]))) {
        const before = parts.at(-1);
        if (before && first <= before[1]) before[1] = larger(before[1], last);
        else parts.push([first, last]);
    }
    return parts;
}

/** The width from which on a gap is left out, so that the parts are not sparse on the axis. */
function widestKept(parts) {
    const covered = sum(parts.map(length));
    const gaps = parts.slice(1).map((part, index) => part[0] - parts[index][1]).sort(byNumber);
    let kept = covered + sum(gaps);
    let widest = null;
    while (gaps.length && kept > SPARSEST * larger(covered, 1n)) {
        widest = gaps.pop();
        kept -= widest;
    }
    return widest;
}

/** Joins parts across the gaps between them, but for the widest. */
function broken(parts) {
    const widest = widestKept(parts);
    const joined = [];
    for (const part of parts) {
        const before = joined.at(-1);
        if (before && (widest === null || part[0] - before[1] < widest)) before[1] = part[1];
        else joined.push([...part]);
    }
    return joined;
}

/** The axis for these windows, of a width and with breaks of another one; null without windows. */
export function axisOf(windows, width, breakWidth) {
    const parts = broken(merged(windows));
    if (!parts.length) return null;
    const room = Math.max(0, width - (parts.length - 1) * breakWidth);
    const all = larger(sum(parts.map(length)), 1n);
    let before = 0n;
    const pieces = parts.map(([first, last], index) => {
        const start = scaled(before, all, room) + index * breakWidth;
        before += last - first;
        return { first, last, start, end: scaled(before, all, room) + index * breakWidth };
    });
    return { pieces };
}

/** Where a second stands. One that no piece has is put at the end of the piece before it. */
export function placeOf({ pieces }, second) {
    const piece = pieces.findLast(({ first }) => first <= second) ?? pieces[0];
    const { first, last, start, end } = piece;
    const past = second < first ? 0n : (second > last ? last : second) - first;
    return start + scaled(past, larger(last - first, 1n), end - start);
}

/** Steps of less than a day. */
const WITHIN_A_DAY = [
    1, 2, 5, 10, 15, 30, 60, 120, 300, 600, 900, 1800, 3600, 7200, 10800, 21600, 43200,
].map(BigInt);
const MOST_DAYS = 100n;
const YEAR = 365n * DAY;

/** The least of 1, 2, 5, 10, 20 and so on, of which so many units are not below a number. */
function roundUp(least, unit) {
    for (let ten = 1n; ; ten *= 10n) {
        const round = [1n, 2n, 5n].map((times) => times * ten).find((r) => r * unit >= least);
        if (round) return round;
    }
}

/** The least round step that is not below so many seconds: seconds, or years of any length. */
function stepOf(least) {
    const within = WITHIN_A_DAY.find((step) => step >= least);
    if (within) return { seconds: within };
    const days = roundUp(least, DAY);
    if (days <= MOST_DAYS) return { seconds: days * DAY };
    const years = roundUp(least, YEAR);
    return { seconds: years * YEAR, years };
}

const multiple = (from, step) => ((from + step - 1n) / step) * step;

/** The first round second from this one on. */
function roundFrom({ seconds, years }, second) {
    if (!years) return multiple(second, seconds);
    const start = yearStart(multiple(yearOf(second), years));
    return start >= second ? start : yearStart(multiple(yearOf(second), years) + years);
}

/** The round seconds of a piece that are as far apart as a name is wide, or its first second. */
function ticksOf({ first, last, start, end }, nameWidth) {
    const places = Math.max(end - start, 1);
    const least = ((last - first) * BigInt(Math.ceil(nameWidth))) / BigInt(Math.ceil(places)) + 1n;
    const step = stepOf(least);
    const ticks = [];
    let second = roundFrom(step, first);
    while (second <= last) {
        const past = scaled(second - first, larger(last - first, 1n), places);
        ticks.push({ second, at: start + past, step: step.seconds });
        second = roundFrom(step, second + 1n);
    }
    return ticks.length ? ticks : [{ second: first, at: start, step: 1n }];
}

/** Seconds that are named below the axis, so that no two names of this width meet. */
export function ticks({ pieces }, nameWidth) {
    const kept = [];
    for (const tick of pieces.flatMap((piece) => ticksOf(piece, nameWidth))) {
        if (!kept.length || tick.at >= kept.at(-1).at + nameWidth) kept.push(tick);
    }
    return kept;
}

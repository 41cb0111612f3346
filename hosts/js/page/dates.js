// Dates of seconds since 1970, and how long some seconds are, for people. Seconds are BigInts: a
// server may say any of 64 bits.

export const MINUTE = 60n;
export const HOUR = 3600n;
export const DAY = 86400n;
const YEAR = 365n * DAY + 6n * HOUR;

const DAYS_OF_400_YEARS = 146097n;
/** From 1 March of the year 0 to 1 January 1970. */
const DAYS_BEFORE_1970 = 719468n;

/** The year, month and day of a number of days since 1970. */
function calendar(day) {
    const days = day + DAYS_BEFORE_1970;
    const inCycle = days % DAYS_OF_400_YEARS;
    const years = (inCycle - inCycle / 1460n + inCycle / 36524n - inCycle / 146096n) / 365n;
    const inYear = inCycle - (365n * years + years / 4n - years / 100n);
    const months = (5n * inYear + 2n) / 153n;
    const month = months < 10n ? months + 3n : months - 9n;
    const year = 400n * (days / DAYS_OF_400_YEARS) + years + (month <= 2n ? 1n : 0n);
    return { year, month, day: inYear - (153n * months + 2n) / 5n + 1n };
}

const two = (number) => String(number).padStart(2, "0");

/** The day of a second, as 2026-03-16. */
export function dayOf(seconds) {
    const { year, month, day } = calendar(seconds / DAY);
    return `${String(year).padStart(4, "0")}-${two(month)}-${two(day)}`;
}

/** Its time of day, as 18:26:08. */
export function timeOf(seconds) {
    const [hour, minute] = [(seconds % DAY) / HOUR, (seconds % HOUR) / MINUTE];
    return `${two(hour)}:${two(minute)}:${two(seconds % MINUTE)}`;
}

export const dateOf = (seconds) => `${dayOf(seconds)} ${timeOf(seconds)}`;
export const yearOf = (seconds) => calendar(seconds / DAY).year;

/** The second at which a year starts, from 1970 on. */
export function yearStart(year) {
    const leaps = (last) => (last - 1n) / 4n - (last - 1n) / 100n + (last - 1n) / 400n;
    return ((year - 1970n) * 365n + leaps(year) - leaps(1970n)) * DAY;
}

/** How many units a number of seconds is, to the nearest whole one. */
const rounded = (seconds, unit) => seconds / unit + (seconds % unit >= unit - unit / 2n ? 1n : 0n);

const ONE = [1n, "second", "s"];
const UNITS = [
    [YEAR, "year", "y"],
    [DAY, "day", "d"],
    [HOUR, "hour", "h"],
    [MINUTE, "minute", "min"],
];
const LONGER = [
    [1_000_000_000n * YEAR, "", "Gy"],
    [1_000_000n * YEAR, "", "My"],
    [1_000n * YEAR, "", "ky"],
];

/** How long a number of seconds is, in the largest unit of which there is a whole one. */
export function span(seconds) {
    const [unit, name] = UNITS.find(([length]) => seconds >= length) ?? ONE;
    const count = rounded(seconds, unit);
    return `${seconds % unit === 0n ? "" : "about "}${count} ${name}${count === 1n ? "" : "s"}`;
}

/** The same in a few letters. */
export function brief(seconds) {
    const [unit, , name] = [...LONGER, ...UNITS].find(([length]) => seconds >= length) ?? ONE;
    return `${rounded(seconds, unit)} ${name}`;
}

/** Two dates, the day but once where it is the same. */
export function datesOf(from, to) {
    const same = dayOf(from) === dayOf(to);
    return `${dateOf(from)} to ${same ? timeOf(to) : dateOf(to)}`;
}

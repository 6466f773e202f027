// How figures are written.

const whole = new Intl.NumberFormat('en');
const percent = new Intl.NumberFormat('en', { style: 'percent', maximumFractionDigits: 0 });

export const count = (number) => whole.format(number);

export const bytes = (number) => `${count(number)} bytes`;

/** By how much a size is smaller than it was. */
export const change = (before, after) => (before ? percent.format(1 - after / before) : '');

export const milliseconds = (time) => `${time < 10 ? time.toFixed(1) : Math.round(time)} ms`;

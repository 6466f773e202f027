// The statuses of the commands, of which the highest that applies counts.

export const SUCCESS = 0;
export const WOULD_CHANGE = 1;
export const WRONG_ARGUMENTS = 2;
export const REFUSED = 3;
export const FAILED = 4;
export const TOO_LARGE = 5;

// Made by dev/api from crates/desk_types/src/limits.rt.

/** The longest floor life on a level 6 label, in minutes: a year. */
export const GREATEST_LABEL = 525_600;
/** The most pieces in a receipt, a scrap or a count. */
export const GREATEST_QUANTITY = 10_000_000;
/** The most boards in a kit. */
export const MOST_BOARDS = 100_000;

// A plant's own texts.js is served in this file's place, where it has one. Here it has none.
export const TEXTS = {};

// TypeScript looks here for the types of bpg.mjs.
export * from './bpg.js';

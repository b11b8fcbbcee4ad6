// The types that several modules share. Tested, not proved.

/**
 * A key of a table, as Python's `foldcairn.plan.schema` tells it.
 * @typedef {{ name: string, kind: string, about: string, unit: string, low: number | null, high: number | null, above: number | null,
 *   choices: string[], aliases: string[], required: boolean, reserved: string[], default: any }} Key
 */

/**
 * What plan files have: the keys of each table, those of which there is one, and batteries in mAh.
 * @typedef {{ single: Record<string, Key[]>, rows: Record<string, Key[]>, capacities: Record<string, number> }} Schema
 */

/** @typedef {Record<string, any>} Row */

/**
 * A plan: its tables by their names in the file, each row with all its keys; a key that is not given is null, or has its default.
 * @typedef {{ plan: Row, floor: Row, losses: Row, battery: Row, search: Row, node: Row[], link: Row[], stream: Row[], host: Row[], event: Row[],
 *   requirement: Row[] }} Plan
 */

export {};

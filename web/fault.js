// Why a client doesn't do what it is asked, and why it doesn't take a message.

/**
 * Why something isn't done that a client was asked. `name` is the name of the fault that `docs/FORMATS.md`
 * has, `id` the id that it carries and `why` its cause, each `null` where it has none. `message` is all of
 * it, as a recording's fault line has it: `Invalid shape:a Missing`.
 */
export class EditFault extends Error {
  constructor(name, id = null, why = null) {
    super([name, id, why].filter((part) => part !== null).join(' '));
    this.name = name;
    this.id = id;
    this.why = why;
  }
}

/** Why a client doesn't take a message: the room broke the protocol. The connection is of no more use. */
export class TakeFault extends Error {}

/** Refuses what isn't as it must be. */
export function check(holds, name, id = null, why = null) {
  if (!holds) {
    throw new EditFault(name, id, why);
  }
}

/** Refuses the first id that isn't as it must be. */
export function checkEach(ids, name, isRight) {
  const id = ids.find((other, place) => !isRight(other, place));
  check(id === undefined, name, id);
}

/** The first fault that a function answers of some items; `null` where it answers `null` of each. */
export function firstFault(items, faultOf) {
  for (const item of items) {
    const fault = faultOf(item);
    if (fault !== null) {
      return fault;
    }
  }
  return null;
}

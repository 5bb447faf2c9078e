import { a, join } from "path";

// Names of a list, one after another.
export default class Names {
  static async *each(list, { a: first = 1n } = {}) {
    for await (const a of list ?? []) yield `${a}/${first}`;
  }
}

export const find = (list) => list?.find((a) => a.a && !/a/u.test(a))

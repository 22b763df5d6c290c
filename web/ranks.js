/** Ranks as candidates know them. A merit list of the office may be several lists of ranks, one behind another, and then a place of it is no rank that anybody knows. The
 * published names say behind which place each list of ranks begins. This file knows nothing of the page. */

const CODE = /^([1-4])-(0|[1-9][0-9]{0,6})(R?)$/;

/** Returns the lists of ranks of each merit list, the best first. Each has its name, which is null for a common list without one, the place behind which it begins, and whether its
 * places are relaxed. `named` has the names by their codes, such as `1-240000R`. A merit list with one list of ranks is left out: its places are ranks. */
export function rankLists(named) {
  const found = new Map();
  for (const [code, name] of named) {
    const [, list, first, relaxed] = CODE.exec(code) ?? [];
    if (list) found.set(Number(list), [...(found.get(Number(list)) ?? []), { name, first: Number(first), isRelaxed: relaxed === "R" }]);
  }
  for (const [list, all] of found) {
    if (!all.some((it) => it.first === 0)) all.push({ name: null, first: 0, isRelaxed: false });
    found.set(list, all.sort((one, other) => one.first - other.first));
    if (all.length < 2) found.delete(list);
  }
  return found;
}

/** Returns the rank that a place stands for, and its list of ranks, or null for the list where the places are ranks. */
export function rankAt(lists, place) {
  const of = place === Infinity ? null : ((lists ?? []).filter((it) => it.first < place).at(-1) ?? null);
  return { rank: place - (of?.first ?? 0), of };
}

/** Returns the place of a rank in one of the lists, or null where the list has no such rank. */
export function placeOf(lists, of, rank) {
  const next = lists[lists.indexOf(of) + 1];
  const place = of.first + rank;
  return next && place > next.first ? null : place;
}

// Labels: two sets of tags, each an ascending list of their spellings.

/** The numbers of a tag's spelling: `#1.0` is [1, 0]. */
const numbersOf = (tag) => tag.slice(1).split('.').map(Number);

export function compareNumbers(a, b) {
  const most = Math.min(a.length, b.length);
  for (let k = 0; k < most; k += 1) {
    if (a[k] !== b[k]) return a[k] - b[k];
  }
  return a.length - b.length;
}

export const compareTags = (a, b) => compareNumbers(numbersOf(a), numbersOf(b));

const tagsOf = (text) => (text === '' ? [] : text.split(','));

/** The label that `{#0,#3.1|#2}` spells. */
export function labelOf(text) {
  const [secrets, integrity] = text.slice(1, -1).split('|');
  return { s: tagsOf(secrets), i: tagsOf(integrity) };
}

/** The tags that `{#0,#3.1}` spells. */
export const tagSetOf = (text) => tagsOf(text.slice(1, -1));

export const labelText = (label) => `{${label.s.join(',')}|${label.i.join(',')}}`;

export const union = (a, b) => [...new Set([...a, ...b])].sort(compareTags);
export const meet = (a, b) => a.filter((tag) => b.includes(tag));
export const withTag = (tags, tag) => union(tags, [tag]);
export const withoutTag = (tags, tag) => tags.filter((other) => other !== tag);
export const isSubset = (a, b) => a.every((tag) => b.includes(tag));
export const sameTags = (a, b) => a.length === b.length && isSubset(a, b);

export const flowsTo = (a, b) => isSubset(a.s, b.s) && isSubset(b.i, a.i);
export const join = (a, b) => ({ s: union(a.s, b.s), i: meet(a.i, b.i) });

/** The label as a unit with this output label writes it: secrets stick, integrity is lost. */
export const raised = (output, label) => ({
  s: union(label.s, output.s),
  i: meet(label.i, output.i),
});

const TAG = '#(?:0|[1-9][0-9]*)(?:\\.(?:0|[1-9][0-9]*))*';
const TAGS = `(?:${TAG}(?:,${TAG})*)?`;
const LABEL = new RegExp(`^\\{${TAGS}\\|${TAGS}\\}$`);

/** The label that a person typed, its tags put in order; nothing where it is no label. */
export function typedLabel(text) {
  const bare = text.replaceAll(' ', '');
  if (!LABEL.test(bare)) return null;
  const { s, i } = labelOf(bare);
  return { s: union(s, []), i: union(i, []) };
}

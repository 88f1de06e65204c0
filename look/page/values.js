// What a filter asks of a part. A value is read from its spelling only here; everywhere else its
// spelling is shown as it stands.

/** The plain content of a value: a bigint, a string, bytes as {hex}, an array or a Map. */
export function valueOf(text) {
  const reader = { text, at: 0 };
  return readValue(reader);
}

function readValue(reader) {
  const first = reader.text[reader.at];
  if (first === '"') return readWords(reader);
  if (first === 'x') {
    reader.at += 1;
    return { hex: readWords(reader) };
  }
  if (first === '[') return readItems(reader, ']', readValue);
  if (first === '(') return new Map(readItems(reader, ')', readField));
  const digits = /-?[0-9]+/y;
  digits.lastIndex = reader.at;
  const [number] = digits.exec(reader.text);
  reader.at += number.length;
  return BigInt(number);
}

function readItems(reader, close, readItem) {
  const items = [];
  reader.at += 1;
  while (reader.text[reader.at] !== close) {
    items.push(readItem(reader));
    if (reader.text[reader.at] === ',') reader.at += 1;
  }
  reader.at += 1;
  return items;
}

function readField(reader) {
  const equals = reader.text.indexOf('=', reader.at);
  const name = reader.text.slice(reader.at, equals);
  reader.at = equals + 1;
  return [name, readValue(reader)];
}

function readWords(reader) {
  const words = /"((?:\\.|[^"\\])*)"/ys;
  words.lastIndex = reader.at;
  const [whole, inner] = words.exec(reader.text);
  reader.at += whole.length;
  return inner.replace(/\\(["\\]|[0-9a-f]{2})/g, (_, escaped) => (escaped.length === 1
    ? escaped
    : String.fromCharCode(parseInt(escaped, 16))));
}

const NAME = '([a-z][a-z0-9_]*)';
const ASKED = '("(?:\\\\.|[^"\\\\])*"|-?[0-9]+)(?:\\.\\.(-?[0-9]+))?';
const CLAUSE = new RegExp(`${NAME}(?:(\\?)|(?:\\.${NAME})?([=<>:^])${ASKED})`, 'gs');

/** The clauses of a filter. */
export function filterOf(text) {
  return [...text.matchAll(CLAUSE)].map(([, name, any, field, test, asked, most]) => ({
    name,
    field,
    test: any ?? test,
    asked: asked === undefined ? null : valueOf(asked),
    most: most === undefined ? null : BigInt(most),
  }));
}

function passes(clause, value) {
  const isNumber = typeof value === 'bigint';
  switch (clause.test) {
    case '?': return true;
    case '=': return value === clause.asked;
    case '<': return isNumber && value < clause.asked;
    case '>': return isNumber && value > clause.asked;
    case ':': return isNumber && value >= clause.asked && value <= clause.most;
    default: return typeof value === 'string' && value.startsWith(clause.asked);
  }
}

/** Whether the clause holds of the part. */
export function serves(clause, part) {
  if (clause.name !== part.name) return false;
  const value = clause.test === '?' ? null : valueOf(part.value);
  if (clause.field === undefined) return passes(clause, value);
  return value instanceof Map && value.has(clause.field)
    && passes(clause, value.get(clause.field));
}

/** Whether each clause of the filter holds of some part. */
export const matches = (filter, parts) =>
  filter.every((clause) => parts.some((part) => serves(clause, part)));

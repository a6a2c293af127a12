// Updates put together by hand from records, in both forms: legal or not, and spelt in ways that Yjs never writes but document 01 reads.
// `loose` is null, or random numbers, which choose longer spellings of numbers and shorter runs in columns.
'use strict'
const model = require('./model.cjs')

const utf8 = text => [...Buffer.from(text, 'utf8')]
const units = text => BigInt(text.length)

// The last byte says more, and empty ones follow.
const padded = (spelling, size) => {
  const out = [...spelling]
  while (out.length < size) {
    out[out.length - 1] |= 128
    out.push(0)
  }
  return out
}
const loosely = (spelling, loose) => loose !== null && loose.random(6) === 0 ? padded(spelling, spelling.length + loose.random(10 - spelling.length)) : spelling
const u = (n, loose = null) => loosely(model.unsigned(BigInt(n)), loose)
const signed = (minus, n, loose) => loosely(model.signed(minus, n), loose)
const sized = (bytes, loose = null) => [...u(bytes.length, loose), ...bytes]

// ---- columns: any values, over the limits too

// Runs of equal neighbours, the longest ones unless `loose` ends them before.
const runs = (values, loose) => {
  const out = []
  for (const v of values) {
    const last = out[out.length - 1]
    if (last !== undefined && last[0] === v && (loose === null || loose.random(4) > 0)) last[1]++
    else out.push([v, 1n])
  }
  return out
}
const numbers = (values, loose = null) => runs(values.map(BigInt), loose).flatMap(([v, n]) =>
  n === 1n ? signed(false, v, loose) : [...signed(true, v, loose), ...u(n - 2n, loose)])
const differences = (values, loose = null) => {
  const clocks = values.map(BigInt)
  return runs(clocks.map((v, k) => k === 0 ? v : v - clocks[k - 1]), loose).flatMap(([d, n]) => {
    const e = 2n * d + (n === 1n ? 0n : 1n)
    const minus = e < 0n || (e === 0n && loose !== null && loose.random(2) === 0)
    return [...signed(minus, e < 0n ? -e : e, loose), ...(n === 1n ? [] : u(n - 2n, loose))]
  })
}
const bytes = (values, loose = null) => {
  const all = runs(values.map(Number), loose)
  return all.flatMap(([v, n], k) => k === all.length - 1 && (loose === null || loose.random(2) === 0) ? [v] : [v, ...u(n - 1n, loose)])
}
const texts = (values, loose = null) => [...sized(utf8(values.join('')), loose), ...numbers(values.map(units), loose)]

// ---- form 2 from its columns, given as bytes; those not given are empty
const COLUMNS = ['key', 'client', 'left', 'right', 'info', 'text', 'parent', 'type', 'length']
const two = (columns, loose = null) =>
  [columns.flag ?? 0, ...COLUMNS.flatMap(name => sized(columns[name] ?? (name === 'text' ? [0] : []), loose)), ...(columns.rest ?? [0, 0])]

// ---- an update from its records
// A section is { client, clock, blocks }. A block is { info } and, as its info says, left, right, parentInfo, name, parent, key, length, text, binary; a
// format has mark and value (its bytes: JSON text, or in form 2 an any-value), a type its number `type` and perhaps a mark, an any-list `values`, which is
// { count, bytes }. In form 2 a mark that was written before keeps its number, as the first one does; loosely it may come anew, under any number.
// A delete-set client is [client, [[clock, length], ..]]. `sections` and `clients` may announce other counts.
const fields = (form, loose) => {
  const rest = []
  const c = { key: [], client: [], left: [], right: [], info: [], text: [], parent: [], type: [], length: [] }
  const inline = x => rest.push(...x)
  const one = form === 1
  const client = n => one ? inline(u(n, loose)) : c.client.push(n)
  const text = t => one ? inline(sized(utf8(t), loose)) : c.text.push(t)
  const keys = []
  const numbered = t => {
    const known = keys.indexOf(t)
    if (known >= 0 && (loose === null || loose.random(3) > 0)) return c.key.push(known)
    c.key.push(keys.length + (loose === null ? 0 : loose.random(3) * loose.random(70)))
    keys.push(t)
    text(t)
  }
  let end = 0n
  return {
    number: n => inline(u(n, loose)),
    client,
    left: ([of, clock]) => {
      client(of)
      one ? inline(u(clock, loose)) : c.left.push(clock)
    },
    right: ([of, clock]) => {
      client(of)
      one ? inline(u(clock, loose)) : c.right.push(clock)
    },
    info: n => one ? rest.push(n) : c.info.push(n),
    parentInfo: n => one ? inline(u(n, loose)) : c.parent.push(n),
    text,
    length: n => one ? inline(u(n, loose)) : c.length.push(n),
    binary: b => inline(sized(b, loose)),
    mark: t => one ? text(t) : numbered(t),
    value: b => inline(one ? sized(b, loose) : b),
    values: inline,
    type: n => one ? inline(u(n, loose)) : c.type.push(n),
    newDeleteClient: () => {
      end = 0n
    },
    range: (clock, length) => {
      const [from, size] = [BigInt(clock), BigInt(length)]
      inline(one ? [...u(from, loose), ...u(size, loose)] : [...u(from - end, loose), ...u(size - 1n, loose)])
      end = from + size
    },
    done: () => one ? rest : two({
      key: differences(c.key, loose),
      client: numbers(c.client, loose),
      left: differences(c.left, loose),
      right: differences(c.right, loose),
      info: bytes(c.info, loose),
      text: texts(c.text, loose),
      parent: bytes(c.parent, loose),
      type: numbers(c.type, loose),
      length: numbers(c.length, loose),
      rest
    }, loose)
  }
}

const writeBlock = (f, b) => {
  f.info(b.info)
  if (b.info === 10) return f.number(b.length)
  if (b.info === 0) return f.length(b.length)
  if (b.info & 128) f.left(b.left)
  if (b.info & 64) f.right(b.right)
  if (!(b.info & 192)) {
    f.parentInfo(b.parentInfo ?? (b.name === undefined ? 0 : 1))
    if ((b.parentInfo ?? 1) === 1 && b.name !== undefined) f.text(b.name)
    else f.left(b.parent)
    if (b.info & 32) f.text(b.key)
  }
  if (b.text !== undefined) return f.text(b.text)
  if (b.binary !== undefined) return f.binary(b.binary)
  if (b.type !== undefined) f.type(b.type)
  if (b.mark !== undefined) f.mark(b.mark)
  if (b.type !== undefined) return
  if (b.value !== undefined) return f.value(b.value)
  f.length(b.values === undefined ? b.length : b.values.count)
  if (b.values !== undefined) f.values(b.values.bytes)
}

const update = (form, { sections = [], deletes = [], sectionCount = sections.length, deleteCount = deletes.length }, loose = null) => {
  const f = fields(form, loose)
  f.number(sectionCount)
  for (const s of sections) {
    f.number(s.count ?? s.blocks.length)
    f.client(s.client)
    f.number(s.clock)
    for (const b of s.blocks) writeBlock(f, b)
  }
  f.number(deleteCount)
  for (const [client, ranges, count = ranges.length] of deletes) {
    f.number(client)
    f.number(count)
    f.newDeleteClient()
    for (const [clock, length] of ranges) f.range(clock, length)
  }
  return f.done()
}

module.exports = { u, padded, sized, numbers, differences, bytes, texts, two, update, utf8 }

// The real Yjs (Debian's node-yjs): what it reads from an update or a state vector, compared with what the model reads.
'use strict'
const Y = require('/usr/share/nodejs/yjs/dist/yjs.cjs')
const { values, shown: shownValue, isBeyond } = require('./any-model.cjs')

const attempt = f => {
  try {
    return f()
  } catch (e) {
    return null
  }
}
// A copy with a buffer of its own: lib0 makes views by place in the buffer below, so in a shared one it would read its neighbours.
const own = bytes => Uint8Array.from(bytes)
const read = (form, update) => attempt(() => form === 1 ? Y.decodeUpdate(own(update)) : Y.decodeUpdateV2(own(update)))

// ---- records as words that show their contents, so that places and strings can be held against each other

const bytesOf = string => Buffer.from(string, 'utf8').toString('hex')
const word = fields => fields.map(x => x ?? 'none').join(' ')
const idWord = id => id === null ? null : `${id.client}:${id.clock}`

const NONE = [null, null, null, null, null, null, null, null]
const ourRecord = update => {
  const shown = part => part === null ? null : `<${Buffer.from(update.slice(part.place, part.place + part.bytes)).toString('hex')}>`
  return b => word([b.client, b.clock, b.length, b.kind, idWord(b.left), idWord(b.right), shown(b.name), idWord(b.parent), shown(b.key), shown(b.part), shown(b.mark),
    b.type])
}
// The same record with the bytes of any-values and of JSON text as what they mean: null where JavaScript does not have it (any-model.cjs), and for text that
// is no JSON.
const meaning = all => {
  const text = all.map(shownValue).join()
  return isBeyond(text) ? null : `<${bytesOf(text)}>`
}
const meant = form => record => {
  const words = record.split(' ')
  const [, , length, kind] = words
  if (kind !== 'any' && kind !== 'format') return record
  const bytes = [...Buffer.from(words[9].slice(1, -1), 'hex')]
  const json = () => attempt(() => [JSON.parse(Buffer.from(bytes).toString('utf8'))])
  const all = kind === 'any' ? values(bytes, BigInt(length)) : form === 2 ? values(bytes, 1n) : json()
  const found = all === null ? null : meaning(all)
  return found === null ? null : [...words.slice(0, 9), found, ...words.slice(10)].join(' ')
}

const kinds = new Map([[Y.ContentDeleted, 'deleted'], [Y.ContentBinary, 'binary'], [Y.ContentString, 'text'], [Y.ContentFormat, 'format'], [Y.ContentType, 'type'],
  [Y.ContentAny, 'any']])
const types = [Y.Array, Y.Map, Y.Text, Y.XmlElement, Y.XmlFragment, Y.XmlHook, Y.XmlText]
const theirRecord = s => {
  const place = [s.id.client, s.id.clock, s.length]
  if (s.constructor === Y.GC) return word([...place, 'gc', ...NONE])
  if (s.constructor !== Y.Item) return word([...place, 'skip', ...NONE])
  const shown = string => string === null || string === undefined ? null : `<${bytesOf(string)}>`
  const { content } = s
  const made = content.type
  const contents = {
    binary: () => [`<${Buffer.from(content.content).toString('hex')}>`, null, null],
    text: () => [shown(content.str), null, null],
    format: () => [meaning([content.value]), shown(content.key), null],
    type: () => [null, shown(made.constructor === Y.XmlElement ? made.nodeName : made.hookName), types.indexOf(made.constructor)],
    any: () => [meaning(content.arr), null, null]
  }
  const kind = kinds.get(content.constructor)
  const named = typeof s.parent === 'string'
  return word([...place, kind ?? content.constructor.name, idWord(s.origin), idWord(s.rightOrigin), named ? shown(s.parent) : null, named ? null : idWord(s.parent),
    shown(s.parentSub), ...(contents[kind] ?? (() => [null, null, null]))()])
}

// The ids of a delete set, by counting starts and ends along the clocks: another way than the model's.
const theirIds = ds => {
  const out = []
  for (const client of [...ds.clients.keys()].sort((a, b) => b - a)) {
    const steps = new Map()
    for (const { clock, len } of ds.clients.get(client)) {
      steps.set(clock, (steps.get(clock) ?? 0) + 1)
      steps.set(clock + len, (steps.get(clock + len) ?? 0) - 1)
    }
    let open = 0
    let from = 0
    for (const clock of [...steps.keys()].sort((a, b) => a - b)) {
      if (steps.get(clock) === 0) continue
      if (open === 0) from = clock
      open += steps.get(clock)
      if (open === 0) out.push(`${client} ${from} ${clock - from}`)
    }
  }
  return out
}

// What Yjs keeps and document 01 drops (a listed difference): items of length 0.
const kept = s => s.constructor !== Y.Item || s.length !== 0

// How many updates: read by both, and equal; of these, with an item of length 0; refused by both for an end or for UTF-8; not held against each other,
// for a flag over 127, for content number 0 with other bits, or for a value that JavaScript does not have; refused by both for a tag or a type number;
// refused here, by the rules of documents 01 and 02 alone. Then vectors read by both, and equal.
const counts = { equal: 0, empty: 0, refused: 0, flag: 0, masked: 0, beyond: 0, unknown: 0, own: 0, vectors: 0 }
const part = (what, form, update) => new Error(`the model and Yjs part at ${what}: form ${form}, ${Buffer.from(update).toString('hex')}`)

// `r` is the model's answer, rows without end. Where it reads, Yjs reads the same. Where it is refused for an end outside the columns, for what is not
// UTF-8, for a tag of an any-value or a type number, so is Yjs. The other refusals are the documents' own, and what Yjs does there is not looked at.
const compare = (form, update, r) => {
  if (form === 2 && update.length > 0 && update[0] > 127) { // a listed difference: the flag is a number there
    counts.flag++
    return
  }
  if (r.masked) { // a listed difference: content number 0 with other bits is a GC there
    counts.masked++
    return
  }
  if (r.number === 0) {
    const ours = r.blocks.map(ourRecord(update)).map(meant(form))
    if (ours.includes(null)) { // a listed difference: Yjs rounds such an integer or throws, loses such a key, and throws at what is no JSON
      counts.beyond++
      return
    }
    const theirs = read(form, update)
    if (theirs === null) throw part('an update that only the model reads', form, update)
    const structs = theirs.structs.filter(kept)
    if (structs.length !== theirs.structs.length) counts.empty++
    if (ours.join('\n') !== structs.map(theirRecord).join('\n')) throw part('records', form, update)
    if (r.ranges.map(d => `${d.client} ${d.clock} ${d.length}`).join('\n') !== theirIds(theirs.ds).join('\n')) throw part('deleted ids', form, update)
    counts.equal++
  } else if ((r.number === 1 && !r.column) || r.number === 6) {
    if (read(form, update) !== null) throw part('an update that only Yjs reads', form, update)
    counts.refused++
  } else if (r.number === 5 && ['tag', 'type number'].includes(r.what)) {
    if (read(form, update) !== null) throw part('a tag or a type number that only Yjs knows', form, update)
    counts.unknown++
  } else counts.own++
}

const compareVector = (vector, r) => {
  const theirs = attempt(() => Y.decodeStateVector(own(vector)))
  const failed = what => new Error(`the model and Yjs part at ${what}: vector ${Buffer.from(vector).toString('hex')}`)
  if (r.number === 0) {
    if (theirs === null || r.entries.map(idWord).join() !== [...theirs].map(([client, clock]) => `${client}:${clock}`).join()) throw failed('entries')
    counts.vectors++
  } else if (r.number === 1 && theirs !== null) throw failed('an end')
}

module.exports = {
  Y, own, attempt, read, kept, ourRecord, meant, theirRecord, theirIds, compare, compareVector,
  version: require('/usr/share/nodejs/yjs/package.json').version,
  told: () => Object.entries(counts).map(([what, n]) => `${what} ${n}`).join('  ')
}

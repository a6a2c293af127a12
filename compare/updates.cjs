// A batch of updates for the comparison, the same every time for its number: by documents that the real Yjs edits, put together in shapes that it does not
// write, and damaged copies of both. Each is { made, how, form, update, vector, to }; `made` is 'by Yjs', 'put together' or 'damaged'. Where a Yjs document
// has the vector's state by edits, `doc` makes it. Beside them columns of form 2, and state vectors.
'use strict'
const fs = require('fs')
const path = require('path')
const { Y } = require('../tools/cases/yjs.cjs')
const { begin, many } = require('../tools/cases/random.cjs')
const { readUpdate } = require('../tools/cases/update-model.cjs')
const { empty } = require('../tools/cases/yjs-sorts.cjs')
const s = require('../tools/cases/spelling.cjs')
const { replaced, ...shape } = require('../tools/cases/shapes.cjs')

const forms = [1, 2]
const groups = [[5], [1, 2], [1, 2, 3], [300, 70000, 9, 4], [0, 127, 128], [4294967295, 2147483648, 1234567890], [9007199254740991, 0, 1099511627776]]
const pools = [[5, 7, 9], [0, 127, 128, 70000], [2n ** 53n - 1n, 2n ** 32n, 9, 5, 0]]
const p = k => 2n ** BigInt(k)
// Numbers about every limit, and the runs about them.
const numbers = [0n, 63n, 64n, 65n, 127n, 128n, 65535n, 65536n, p(31) - 2n, p(31) - 1n, p(31), p(32) - 2n, p(32) - 1n, p(32), p(32) + 1n, p(53) - 1n, p(53), p(63) - 1n]
const runs = ['', '80', '45', '45 80', '45 fd ff ff ff 07', '42 fe ff ff ff 07', '42 ff ff ff ff 0f', '80 80 80 80 80 80 80 20', 'bf ff ff ff ff ff ff 1f', '80 80 80 80 10',
  'bf ff ff ff 0f', 'bf ff ff ff 0f 00', 'c0 80 80 80 10', 'c1 80 80 80 10', '44', '03', '03 00', '40', '40 00', '09 ff ff ff ff 07', '0a 00 00'].map(t => [...Buffer.from(t.replace(/ /g, ''), 'hex')])

// The inputs of docs/DIFFERENCES.md: form, update and, if there is one, vector, of the rows that name a form.
const listed = () => fs.readFileSync(path.join(__dirname, '../docs/DIFFERENCES.md'), 'utf8').split('\n').flatMap(line => {
  const said = line.split(' | ')[1]?.match(/^f([12])(?:→f[12])? ((?:`[0-9a-f]+`(?:, |$| ))+)(?:against `([0-9a-f]+)`)?/)
  if (!said) return []
  const bytes = text => [...Buffer.from(text, 'hex')]
  const all = said[2].match(/[0-9a-f]+/g)
  // In the sorter's rows the second one is the vector.
  const sorter = /^(00|01[0-9a-f]{4})$/.test(all[1] ?? '')
  const vector = said[3] ?? (sorter ? all[1] : undefined)
  return (sorter ? [all[0]] : all).map(update => ({ form: Number(said[1]), update: bytes(update), ...(vector ? { vector: bytes(vector) } : {}) }))
})

const make = batch => {
  const loose = begin((batch + 1) * 0x9e3779b1 | 1)
  const { random, pick } = loose
  const documents = require('../tools/cases/documents.cjs').begin(loose)
  const rich = require('../tools/cases/rich-documents.cjs').begin(loose)
  const marked = shape.begin(loose, [1, 3, 4, 6, 6, 7, 7, 8, 8])
  const { some, someClient, damaged, shuffled, tangled } = shape.begin(loose)
  const between = (low, high) => high > low ? low + BigInt(random(Number(high - low))) : low
  const vectorOf = entries => {
    const spelt = random(5) === 0 ? loose : null
    return [...s.u(entries.length, spelt), ...entries.flatMap(([client, clock]) => [...s.u(client, spelt), ...s.u(clock, spelt)])]
  }

  // ---- vectors: of some of an update's clients, at borders of their blocks, inside one, beyond the end; and of others

  const remote = blocks => {
    const b = pick(blocks)
    return pick([() => 0n, () => b.clock, () => b.clock + b.length, () => between(b.clock, b.clock + b.length), () => between(b.clock + 1n, b.clock + b.length), () => b.clock + BigInt(random(9))])()
  }
  const someVector = (form, update) => {
    const { blocks = [] } = readUpdate(form, update)
    const clients = [...new Set(blocks.map(b => b.client))]
    const named = clients.filter(() => random(4) > 0).map(client => [client, remote(blocks.filter(b => b.client === client))])
    const others = many(random(3), someClient).filter(client => !clients.includes(client)).map(client => [client, random(50)])
    const all = shuffled([...named, ...new Map(others)])
    return random(8) === 0 ? [0] : random(40) === 0 ? damaged(vectorOf(all)) : vectorOf(all)
  }

  // ---- whole ones

  const out = []
  const put = (how, form, update, more = {}) => out.push({ made: 'by Yjs', how, form, update: [...update], ...more })
  const { made, vectors } = documents.histories(14)
  shuffled(made).slice(0, 200).forEach(({ form, update }, k) => put('edited', form, update, k % 6 === 0 ? { vector: pick(vectors) } : {}))
  // Coloured text, maps and arrays of plain values, XML, types inside types.
  const coloured = documents.histories(7, rich.edit)
  shuffled(coloured.made).slice(0, 160).forEach(({ form, update }, k) => put('edited with marks, values and types', form, update, k % 6 === 0 ? { vector: pick(coloured.vectors) } : {}))
  // Conversations: merged, partly, with gaps; what a document holds, without what a vector knows; what it keeps back. Against a document in any state.
  many(7, k => {
    const clients = groups[(batch + k) % groups.length]
    const turns = k === 6 ? (batch % 5 === 0 ? 120 : 40) : 6 + random(7)
    const sent = documents.conversation({
      clients, gc: random(4) > 0, turns, who: () => random(clients.length), hears: () => random(4) > 0,
      say: doc => k % 2 === 0 && k < 6 ? rich.edit(doc) : documents.edit(doc, k % 3 === 0)
    })
    const readable = sent.filter(x => readUpdate(1, x.one).number === 0)
    if (readable.length === 0) return
    const all = sent.map((_, n) => n)
    const held = wanted => {
      const doc = empty()
      for (const n of documents.closed(sent, wanted)) Y.applyUpdate(doc, sent[n].one)
      return doc
    }
    const merged = (form, some) => form === 1 ? Y.mergeUpdates(some.map(x => x.one)) : Y.mergeUpdatesV2(some.map(x => x.two))
    const inForm = (form, two) => form === 2 ? two : Y.convertUpdateFormatV2ToV1(two)
    many(9, j => {
      const form = pick(forms)
      const known = pick([[], many(random(sent.length), n => n), all.filter(() => random(4) === 0)])
      const state = { vector: [...Y.encodeStateVector(held(known))], doc: () => held(known) }
      const some = readable.filter(() => random(3) > 0)
      if (j < 2) put('sent', form, merged(form, [pick(readable)]), state)
      else if (j < 5 && some.length > 0) put('merged with gaps', form, merged(form, some), state)
      else if (j === 5) put('held', form, inForm(form, Y.encodeStateAsUpdateV2(held(all))), state)
      else if (j === 6) {
        const of = held(all)
        const clocks = [...Y.decodeStateVector(Y.encodeStateVector(of))].map(([client, clock]) => [client, random(clock + 1)])
        put('held, without what a vector knows', form, inForm(form, Y.encodeStateAsUpdateV2(of, Y.encodeStateVector(new Map(clocks)))), state)
      } else if (some.length > 0) {
        const doc = empty()
        some.forEach(x => Y.applyUpdate(doc, x.one))
        if (doc.store.pendingStructs !== null) put('kept back', form, inForm(form, doc.store.pendingStructs.update), state)
      }
    })
  })
  const together = { made: 'put together' }
  many(60, k => put('shape', forms[k % 2], s.update(forms[k % 2], (k % 3 === 0 ? some : marked.some)(forms[k % 2]), k % 4 < 2 ? null : loose), together))
  many(90, k => {
    const pool = pools[k % 3]
    const vector = vectorOf(shuffled([...pool, 6, 77].filter(() => random(3) === 0)).map(client => [client, random(5)]))
    put('tangled', forms[k % 2], s.update(forms[k % 2], { sections: tangled(pool), deletes: random(6) === 0 ? [[5, [[random(3), 2]]]] : [] }, k % 8 < 6 ? null : loose), { ...together, vector })
  })

  // Contents that are not read, as editors write them; and more marks than form 2 has keys for.
  many(4, k => {
    const doc = documents.document(pick(groups[(batch + k) % groups.length]), true)
    const text = doc.getText('t')
    text.insert(0, 'wairo 😀')
    pick([() => text.insertEmbed(2, { image: 'k' }), () => doc.getMap('m').set('k', new Y.Doc({ guid: 'g' }))])()
    put('other contents', 1 + k % 2, k % 2 === 0 ? Y.encodeStateAsUpdate(doc) : Y.encodeStateAsUpdateV2(doc))
  })
  if (batch % 10 === 5) {
    const n = pick([127, 128, 129, 140])
    const doc = documents.document(5, true)
    doc.transact(() => many(n, k => {
      doc.getText('t').insert(doc.getText('t').length, 'word', { color: 'red' })
      doc.getText('t').insert(doc.getText('t').length, ' ', {})
    }))
    put('about a limit', 1, Y.encodeStateAsUpdate(doc))
    put('about a limit', 2, Y.encodeStateAsUpdateV2(doc))
    const elements = pick([255, 256, 257])
    put('about a limit', 1, s.update(1, { sections: [{ client: 5, clock: 0, blocks: many(elements, j => ({ info: 7, name: 't', type: 3, mark: `n${j}` })) }] }), together)
  }
  // About the limits on counts and sizes.
  const block = () => pick([{ info: 0, length: 1 }, { info: 1, name: 't', length: 2 }, { info: 4, name: 't', text: 'a' }])
  many(8, k => {
    const form = forms[k % 2]
    const n = pick([63, 64, 65])
    const clocks = pick([p(31) - 3n, p(31) - 2n, p(31) - 1n, p(31), p(32) - 2n, p(32) - 1n])
    put('about a limit', form, s.update(form, pick([
      () => ({ sections: many(n, j => ({ client: 3 * j, clock: j, blocks: many(random(2), block) })) }),
      () => ({ sections: [{ client: 5, clock: 0, blocks: many(3, block) }], deletes: many(n, j => [7 * j, many(random(2), i => [3 * i, 2])]) }),
      () => ({ sections: [{ client: 5, clock: clocks, blocks: many(3, block) }, { client: pick([5, 9]), clock: 0, blocks: [block()] }] }),
      () => ({ sections: [{ client: pick([p(53) - 1n, p(53)]), clock: 0, blocks: many(2, block) }], deletes: [[5, [[clocks, pick([1, 2, p(31) - 1n])]]]] })
    ])(), random(3) === 0 ? loose : null), together)
  })
  if (batch % 10 === 0) {
    const count = pick([65535, 65536])
    put('about a limit', 2, s.two({ client: [5], info: [0], length: [0x41, ...s.u(count - 2)], rest: [1, ...s.u(count), 0, 0] }), together)
  }
  if (batch === 0) listed().forEach(x => put('docs/DIFFERENCES.md', x.form, x.update, { ...together, ...x }))

  // ---- damaged copies, of one kind or of several in turn

  // Form 2's nine columns as [length's bytes, column's bytes], and the rest; null if they are not there.
  const cut = update => {
    const parts = []
    let at = 1
    for (let k = 0; k < 9; k++) {
      let [size, shift, from] = [0, 1, at]
      do {
        size += (update[at] & 127) * shift
        shift *= 128
      } while (update[at++] > 127 && at < update.length)
      if (!(at + size <= update.length)) return null
      parts.push([update.slice(from, at), update.slice(at, at + size)])
      at += size
    }
    return { flag: update[0], parts, rest: update.slice(at) }
  }
  const joined = ({ flag, parts, rest }) => [flag, ...parts.flat(2), ...rest]
  const anywhere = list => random(list.length + 1)
  const sizedAgain = column => [s.u(column.length), column]
  const inColumn = [
    ([, column]) => sizedAgain(column.length > 0 ? damaged(column) : [random(256)]),
    ([, column]) => sizedAgain(column.slice(0, anywhere(column))),
    ([, column]) => sizedAgain([...column, ...many(1 + random(2), () => random(256))]),
    () => sizedAgain(pick(runs)),
    ([, column]) => sizedAgain([...pick(runs), ...column]),
    ([, column]) => [s.u(pick([0, Math.max(0, column.length - 1), column.length + 1, random(40), 127, 128, p(31), p(63) - 1n])), column],
    ([size, column]) => [s.padded(size, 2 + random(10)), column]
  ]
  const small = update => {
    const places = update.flatMap((b, k) => b < 128 ? [k] : [])
    return places.length === 0 ? null : pick(places)
  }
  const damages = {
    flipped: ({ update }) => damaged(update),
    cut: ({ update }) => update.slice(0, random(update.length)),
    inserted: ({ update }) => {
      const k = anywhere(update)
      return [...update.slice(0, k), ...many(1 + random(3), () => random(256)), ...update.slice(k)]
    },
    'left out': ({ update }) => {
      const k = random(update.length)
      return [...update.slice(0, k), ...update.slice(k + 1 + random(3))]
    },
    'a number lengthened': ({ update }) => {
      const k = small(update)
      return k === null ? update : replaced(update, k, ...s.padded([update[k]], 2 + random(10)))
    },
    'a number at a limit': ({ update }) => {
      const k = small(update)
      return k === null ? update : replaced(update, k, ...s.u(pick(numbers)))
    },
    'a column': ({ form, update }) => {
      const of = form === 2 ? cut(update) : null
      if (of === null) return damaged(update)
      const k = pick([0, 0, 1, 1, 2, 3, 4, 4, 5, 5, 6, 7, 8, 8, random(9)])
      return joined({ ...of, parts: replaced(of.parts, k, pick(inColumn)(of.parts[k])) })
    },
    'a part of another': ({ form, update }, all) => {
      const other = pick(all.filter(x => x.form === form)).update
      return [...update.slice(0, random(update.length)), ...other.slice(random(other.length))]
    },
    'the other form': ({ update }) => update
  }
  const ways = ['flipped', 'flipped', 'flipped', 'cut', 'inserted', 'left out', 'a number lengthened', 'a number lengthened', 'a number at a limit', 'a number at a limit',
    'a column', 'a column', 'a column', 'a column', 'a part of another']
  const whole = out.filter(x => x.update.length > 0)
  const short = whole.filter(x => x.update.length < 1500)
  for (let k = 0; k < whole.length * 1.3; k++) {
    const from = pick(k % 3 === 0 ? short.filter(x => x.update.length < 60) : short)
    const how = random(60) === 0 ? 'the other form' : pick(ways)
    let update = damages[how](from, whole)
    if (random(5) === 0 && update.length > 0) update = damages[pick(ways)]({ form: from.form, update }, whole)
    const form = how === 'the other form' ? 3 - from.form : from.form
    out.push({ made: 'damaged', how, form, update, ...(random(3) === 0 && from.vector ? { vector: from.vector } : {}) })
  }
  for (const x of out) {
    x.to = pick(forms)
    if (x.vector === undefined) x.vector = someVector(x.form, x.update)
  }

  // ---- columns: cut from form 2 updates, changed, and made of runs: [kind, bytes]

  const kinds = [1, 0, 1, 1, 2, 3, 2, 0, 0] // 0 numbers, 1 differences, 2 bytes, 3 texts, as the nine columns are
  const columns = out.filter(x => x.form === 2 && x.update.length > 12 && x.update.length < 400).flatMap(({ update }) => {
    const of = cut(update)
    if (of === null) return []
    const k = pick([0, 1, 2, 3, 4, 5, 6, 7, 8].filter(k => of.parts[k][1].length > 0 || random(20) === 0))
    if (k === undefined) return []
    const column = of.parts[k][1]
    return [[kinds[k], column], [kinds[k], column.length > 0 ? damaged(column) : pick(runs)]]
  })
  many(60, () => columns.push([random(3), many(1 + random(4), () => pick([...runs, [random(256)], [random(8)]])).flat()]))
  many(20, () => {
    const text = many(random(6), () => pick(['a', 'é', '€', '😀', 'bc'])).join('')
    columns.push([3, [...s.sized(s.utf8(text)), ...s.numbers(many(1 + random(4), () => BigInt(random(4))), loose)]])
  })
  const changed = vector => random(2) === 0 ? damaged(vector) : random(2) === 0 ? vector.slice(0, random(vector.length)) : replaced(vector, random(vector.length), ...s.u(pick(numbers)))
  const vectorsRead = out.filter((_, k) => k % 4 === 0).flatMap(({ vector }) => [[...vector], changed([...vector])])
  return { updates: out, columns, vectors: vectorsRead }
}

module.exports = { make }

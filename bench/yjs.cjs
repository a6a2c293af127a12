// yjs.cjs DIR [QUICK]: the same work by Yjs and lib0 in node, in the same lines as bench.c's, with the side `yjs`. A diff into the other form is a conversion
// and a diff. Yjs has no sorter by itself: `applyUpdate` to an empty document sorts and puts the blocks into it.
'use strict'
const fs = require('fs')
const path = require('path')
const Y = require('/usr/share/nodejs/yjs/dist/yjs.cjs')
const lib0 = require('/usr/share/nodejs/lib0/dist/encoding.cjs')
const decoding = require('/usr/share/nodejs/lib0/dist/decoding.cjs')

const [, , dir, quick] = process.argv
const load = (name, end) => Uint8Array.from(fs.readFileSync(path.join(dir, `${name}.${end}`)))
const BATCH = quick === '1' ? 1e6 : 4e6
const BATCHES = quick === '1' ? 2 : 5
const WARM = quick === '1' ? 1e7 : 2e8

const now = () => Number(process.hrtime.bigint())
const run = (work, times) => {
  const from = now()
  for (let k = 0; k < times; k++) work()
  return (now() - from) / times
}
// Warm first, so that the code is compiled; then the best of several batches.
const measure = (input, name, work, answer = work()) => {
  const from = now()
  let rounds = 0
  do {
    work()
    rounds++
  } while (now() - from < WARM)
  const one = (now() - from) / rounds
  const times = Math.max(1, Math.ceil(BATCH / one))
  let best = Infinity
  for (let b = one > 1e8 ? 1 : BATCHES; b > 0; b--) best = Math.min(best, run(work, times))
  console.log([input, name, 'yjs', best.toFixed(1), answer.join(' ')].join('\t'))
}

const sum = (all, f) => all.reduce((n, x) => n + f(x), 0)
const readers = { 1: Y.decodeUpdate, 2: Y.decodeUpdateV2 }
const read = (form, update) => {
  const { structs, ds } = readers[form](update)
  return [structs.length, sum([...ds.clients.values()], r => r.length)]
}
const diffs = {
  11: Y.diffUpdate,
  12: (u, v) => Y.diffUpdateV2(Y.convertUpdateFormatV1ToV2(u), v),
  21: (u, v) => Y.diffUpdate(Y.convertUpdateFormatV2ToV1(u), v),
  22: Y.diffUpdateV2
}
const appliers = { 1: Y.applyUpdate, 2: Y.applyUpdateV2 }
// Blocks join once they are in a document, so only how far it reaches can be compared, and whether blocks are left.
const sort = (form, update) => {
  const doc = new Y.Doc()
  appliers[form](doc, update)
  let reach = 0
  doc.store.clients.forEach(s => {
    const last = s[s.length - 1]
    reach += last.id.clock + last.length
  })
  return [doc.store.pendingStructs === null ? 'none' : 'some', reach]
}

const decoders = {
  numbers: b => new decoding.UintOptRleDecoder(b),
  differences: b => new decoding.IntDiffOptRleDecoder(b),
  bytes: b => new decoding.RleDecoder(b, decoding.readUint8),
  texts: b => new decoding.StringDecoder(b)
}
const encoders = {
  numbers: () => new lib0.UintOptRleEncoder(),
  differences: () => new lib0.IntDiffOptRleEncoder(),
  bytes: () => new lib0.RleEncoder(lib0.writeUint8),
  texts: () => new lib0.StringEncoder()
}
const finished = e => e.toUint8Array === undefined ? lib0.toUint8Array(e) : e.toUint8Array()
const values = (input, count) => {
  const d = decoders[input](load(input, 'column'))
  return Array.from({ length: count }, () => d.read())
}

for (const line of fs.readFileSync(path.join(dir, 'list'), 'utf8').trim().split('\n')) {
  const [input, blocks, , works] = line.split('\t')
  const count = Number(blocks)
  for (const work of works.split(',')) {
    const form = work[4]
    if (work.startsWith('read')) {
      const update = load(input, form)
      measure(input, work, () => read(form, update))
    } else if (input.startsWith('rich') && work === 'diff22') {
      // keys are written anew there, so that it has other bytes
    } else if (work.startsWith('diff')) {
      const [update, vector] = [load(input, form), load(input, 'vector')]
      measure(input, work, () => [diffs[work.slice(4)](update, vector).length])
    } else if (work.startsWith('sort')) {
      const update = load(input, form)
      measure(input, work, () => sort(form, update))
    } else if (work.startsWith('held') || work.startsWith('given')) {
      // it has no call that gets held ids
    } else if (work === 'each1') {
      const all = load(input, '1')
      const lengths = new Uint32Array(load(input, 'lengths').buffer)
      let at = 0
      const messages = Array.from(lengths, n => all.slice(at, at += n))
      measure(input, work, () => {
        const out = [0, 0]
        for (const m of messages) {
          const [b, r] = read(1, m)
          out[0] += b
          out[1] += r
        }
        return out
      })
    } else if (work === 'next') {
      const column = load(input, 'column')
      measure(input, work, () => {
        const d = decoders[input](column)
        let n = 0
        for (let k = 0; k < count; k++) {
          const v = d.read()
          n += input === 'texts' ? v.length : v
        }
        return [n]
      }, ...(input === 'texts' ? [[sum(values(input, count), t => Buffer.byteLength(t))]] : []))
    } else if (work === 'write') {
      const all = values(input, count)
      measure(input, work, () => {
        const e = encoders[input]()
        for (let k = 0; k < count; k++) e.write(all[k])
        return [finished(e).length]
      })
    }
  }
}

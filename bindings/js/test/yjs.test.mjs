// Beside Yjs itself (Debian's node-yjs; passed over where it is not installed): blocks and deleted ids are what Yjs decodes, of every update of the case stream that
// reads; and what Yjs makes of our diffs is the document.
import assert from 'node:assert/strict'
import { existsSync } from 'node:fs'
import { createRequire } from 'node:module'
import { test } from 'node:test'
import { load, Refused } from '../index.js'
import { cases } from './stream.mjs'

const w = await load()
const require = createRequire(import.meta.url)
const missing = existsSync('/usr/share/nodejs/yjs/dist/yjs.cjs') ? false : 'node-yjs is not installed'

test('blocks and deleted ids are what Yjs decodes', { skip: missing }, t => {
  const yjs = require('../../../tools/cases/yjs.cjs')
  const seen = new Set()
  let refused = 0
  for (const [operation, given] of cases()) {
    if (operation !== 14) continue
    const [form, , , update] = given
    const key = form + update.toString('latin1')
    if ((form !== 1 && form !== 2) || seen.has(key)) continue
    seen.add(key)
    try {
      yjs.compare(form, update, { number: 0, ...w.read(form, update) })
    } catch (e) {
      if (!(e instanceof Refused)) throw e
      refused++
    }
  }
  const read = seen.size - refused
  assert.ok(read > 5000)
  t.diagnostic(`${seen.size} updates, ${read} of them read; ${yjs.version}: ${yjs.told()}`)
})

test('what Yjs makes of our diffs is the document', { skip: missing }, t => {
  const { Y } = require('../../../tools/cases/yjs.cjs')
  let state = 7
  const random = n => {
    state = (state * 1103515245 + 12345) % 2147483648
    return Math.floor(state / 65536) % n
  }
  const shown = doc => [doc.getText('t').toDelta(), doc.getArray('l').toJSON(), doc.getMap('m').toJSON()]
  const edit = doc => {
    const [text, list, map] = [doc.getText('t'), doc.getArray('l'), doc.getMap('m')]
    const edits = [
      () => text.insert(random(text.length + 1), ['a', 'bc', 'é', '😀', 'line\n'][random(5)]),
      () => text.insert(text.length, 'typed '),
      () => text.length > 3 && text.delete(random(text.length - 2), 1 + random(2)),
      () => list.insert(random(list.length + 1), [[random(9)], ['x', null, { a: [true] }], [new Uint8Array([1, 2])]][random(3)]),
      () => map.set(['k', 'l'][random(2)], random(5) === 0 ? new Y.Map([['in', 1]]) : random(99))
    ]
    edits[random(edits.length)]()
  }
  let diffs = 0
  for (let round = 0; round < 60; round++) {
    const docs = [3, 9, 2 ** 31 + 5].map(client => Object.assign(new Y.Doc(), { clientID: client }))
    for (let step = 0; step < 30; step++) {
      const doc = docs[random(docs.length)]
      edit(doc)
      if (random(4) === 0) Y.applyUpdate(docs[random(docs.length)], Y.encodeStateAsUpdate(doc))
    }
    const [whole, older] = docs
    for (const doc of docs) Y.applyUpdate(whole, Y.encodeStateAsUpdate(doc))
    const vector = Y.encodeStateVector(older)
    for (const form of [1, 2]) {
      const update = form === 1 ? Y.encodeStateAsUpdate(whole) : Y.encodeStateAsUpdateV2(whole)
      w.readStrict(form, update)
      const { pending, order, blocks } = w.sort(13, form, update, vector)
      assert.deepEqual([pending, order.length], [[], blocks.length])
      for (const to of [1, 2]) {
        const made = new Y.Doc()
        Y.applyUpdate(made, Y.encodeStateAsUpdate(older))
        const diff = w.diff(form, update, vector, to)
        if (to === 1) Y.applyUpdate(made, diff)
        else Y.applyUpdateV2(made, diff)
        assert.deepEqual(shown(made), shown(whole))
        diffs++
      }
    }
    const entries = w.readStateVector(vector)
    assert.deepEqual(new Map(entries.map(e => [e.client, e.clock])), Y.decodeStateVector(vector))
  }
  t.diagnostic(`${diffs} diffs`)
})

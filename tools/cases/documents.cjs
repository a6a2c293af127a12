// Updates made by the real Yjs: several documents edit, send, miss and merge. The same every time: client ids and edits come from our random numbers.
'use strict'
const { Y } = require('./yjs.cjs')
const { hex } = require('./stream.cjs')
const { many } = require('./random.cjs')

const words = ['a', 'hi', 'wairo', ' ', 'é', 'ß€', '日本', '😀', 'a😀b', '𝄞𝄞', 'x'.repeat(40), '\u0000', '\ud7ff\ue000', 'naïve café', '👩‍👧']
const names = ['t', 'title', 'ä😀']
const keys = ['k', 'key 2', '鍵', '😀', '']
const types = [() => new Y.Text(), () => new Y.Array(), () => new Y.Map()]
const ways = [
  { clients: [5], steps: 5, edits: 2 },
  { clients: [1, 2, 3], steps: 8, edits: 3 },
  { clients: [300, 70000, 9, 4], steps: 10, edits: 2 },
  { clients: [0, 127, 128], steps: 7, edits: 4 },
  { clients: [4294967295, 2147483648, 1234567890], steps: 8, edits: 3 },
  { clients: [9007199254740991, 9007199254740990, 4294967296], steps: 8, edits: 2 },
  { clients: [9007199254740991, 0, 1099511627776, 2 ** 31 - 1, 72], steps: 12, edits: 2 }
]

const begin = ({ random, pick }) => {
  const binary = () => Uint8Array.from(many(pick([0, 1, 3, 9, 30]), () => random(256)))
  const inList = (list, insert) => {
    if (list.length > 0 && random(3) === 0) {
      const at = random(list.length)
      list.delete(at, 1 + random(Math.min(list.length - at, 6)))
    } else insert(random(list.length + 1))
  }
  const inMap = map => {
    const key = pick(keys)
    if (random(4) === 0) map.delete(key)
    else map.set(key, binary())
  }
  const inText = text => inList(text, at => text.insert(at, pick(words)))
  const inArray = array => inList(array, at => array.insert(at, many(1 + random(3), binary)))
  const inside = type => type instanceof Y.Text ? inText(type) : type instanceof Y.Array ? inArray(type) : inMap(type)

  // One edit whose contents are deleted, binary or text. With `nested` also in types inside a map, and these are made and deleted: content 7, and then GC.
  // Marks, any-values and XML are in rich-documents.cjs.
  const edit = (doc, nested) => {
    const boxes = doc.getMap('boxes')
    switch (random(nested ? 14 : 10)) {
      case 0: case 1: case 2: case 3: return inText(doc.getText(pick(names)))
      case 4: return inText(doc.get('xml', Y.XmlText))
      case 5: case 6: return inArray(doc.getArray('list'))
      case 7: case 8: case 9: return inMap(doc.getMap('map'))
      case 10: return boxes.set(pick(keys), pick(types)())
      case 11: return boxes.delete(pick(keys))
      default: {
        const types = [...boxes.values()]
        if (types.length > 0) inside(pick(types))
      }
    }
  }

  const document = (client, gc) => {
    const doc = new Y.Doc({ gc })
    doc.clientID = client
    return doc
  }

  // A vector that knows some clients, up to any clock, so that blocks are cut.
  const someVector = doc => {
    const all = [...Y.decodeStateVector(Y.encodeStateVector(doc))]
    return Y.encodeStateVector(new Map(all.filter(() => random(3) > 0).map(([client, clock]) => [client, random(clock + 1)])))
  }

  // What `steps` edits by these clients send and hold: a list of { how, form, update }. `say` makes an edit.
  const history = ({ clients, gc, say, steps, edits }) => {
    const out = []
    const both = (how, one, two) => out.push({ how, form: 1, update: [...one] }, { how, form: 2, update: [...two] })
    const docs = clients.map(client => document(client, gc))
    const waiting = docs.map(() => [])
    const sent = []
    docs.forEach((doc, k) => {
      let one = null
      doc.on('update', (update, origin, d, transaction) => {
        if (transaction.local) one = update
      })
      doc.on('updateV2', (update, origin, d, transaction) => {
        if (!transaction.local) return
        sent.push({ one, two: update })
        both('sent', one, update)
        waiting.forEach((queue, j) => j !== k && queue.push({ one, two: update }))
      })
    })
    const receive = (k, update) => random(2) === 0 ? Y.applyUpdate(docs[k], update.one) : Y.applyUpdateV2(docs[k], update.two)
    for (let step = 0; step < steps; step++) {
      const k = random(docs.length)
      docs[k].transact(() => {
        for (let n = 1 + random(edits); n > 0; n--) say(docs[k])
      })
      const j = random(docs.length)
      // In order, or the newest first, so that earlier ones are missing for a while.
      while (waiting[j].length > 0 && random(4) > 0) receive(j, random(5) === 0 ? waiting[j].pop() : waiting[j].shift())
      if (step % 4 === 3) both('held', Y.encodeStateAsUpdate(docs[j]), Y.encodeStateAsUpdateV2(docs[j]))
    }
    waiting.forEach((queue, k) => queue.splice(0).forEach(update => receive(k, update)))
    // Types that are left would keep their content: deleted, they leave GCs.
    docs[0].transact(() => [...docs[0].getMap('boxes').keys()].forEach(key => docs[0].getMap('boxes').delete(key)))
    const doc = docs[0]
    const [one, two] = [Y.encodeStateAsUpdate(doc), Y.encodeStateAsUpdateV2(doc)]
    both('held at the end', one, two)
    for (let k = 0; k < 2; k++) {
      const vector = someVector(doc)
      both('held, without what a vector knows', Y.encodeStateAsUpdate(doc, vector), Y.encodeStateAsUpdateV2(doc, vector))
    }
    both('written again in the other form', Y.convertUpdateFormatV2ToV1(two), Y.convertUpdateFormatV1ToV2(one))
    for (let k = 0; k < 3; k++) {
      const some = sent.filter(() => random(3) > 0)
      if (some.length === 0) continue
      const [mergedOne, mergedTwo] = [Y.mergeUpdates(some.map(s => s.one)), Y.mergeUpdatesV2(some.map(s => s.two))]
      both('merged with gaps', mergedOne, mergedTwo)
      const vector = someVector(doc)
      both('merged with gaps, without what a vector knows', Y.diffUpdate(mergedOne, vector), Y.diffUpdateV2(mergedTwo, vector))
    }
    return { updates: out, vectors: [Y.encodeStateVector(doc), someVector(doc), someVector(doc)].map(v => [...v]) }
  }

  // As many histories, by all ways in turn: each update once, and all vectors.
  const histories = (n, say = null) => {
    const seen = new Set()
    const made = []
    const vectors = []
    for (let k = 0; k < n; k++) {
      const h = history({ ...ways[k % ways.length], gc: k % 5 !== 4, say: say ?? (doc => edit(doc, k % 2 === 1)) })
      vectors.push(...h.vectors)
      for (const { form, update } of h.updates) {
        const key = form + hex(update)
        if (!seen.has(key)) made.push({ form, update })
        seen.add(key)
      }
    }
    return { made, vectors }
  }

  // Documents that hear of each other's edits, of each one after those that it rests on: turn by turn `who` edits, and before it hears what `hears` says.
  // What was sent, in order: { one, two, rests }, both forms and which ones before it the sender held.
  const conversation = ({ clients, gc, turns, who, hears, say }) => {
    const docs = clients.map(client => document(client, gc))
    const held = docs.map(() => new Set())
    const sent = []
    for (let turn = 0; turn < turns; turn++) {
      const k = who(turn)
      const wanted = closed(sent, sent.map((_, n) => n).filter(n => hears(n, turn)))
      for (const n of wanted.filter(n => !held[k].has(n))) {
        Y.applyUpdate(docs[k], sent[n].one)
        held[k].add(n)
      }
      const update = { one: null, two: null, rests: [...held[k]] }
      docs[k].once('update', one => { update.one = one })
      docs[k].once('updateV2', two => { update.two = two })
      docs[k].transact(() => say(docs[k], turn))
      if (update.two === null) continue // nothing was edited
      held[k].add(sent.length)
      sent.push(update)
    }
    return sent
  }
  // Some of what was sent, with all that it rests on, in order.
  const closed = (sent, some) => [...new Set(some.flatMap(n => [...sent[n].rests, n]))].sort((a, b) => a - b)

  // What a document holds once the embeds of its text are deleted, in form 1.
  const withoutEmbeds = doc => {
    const text = doc.getText('text')
    let at = 0
    const places = text.toDelta().flatMap(({ insert }) => {
      const from = at
      at += typeof insert === 'string' ? insert.length : 1
      return typeof insert === 'string' ? [] : [from]
    })
    doc.transact(() => places.reverse().forEach(place => text.delete(place, 1)))
    return [...Y.encodeStateAsUpdate(doc)]
  }

  // A document from an update, with all its content deleted: in both forms, whole and without one client.
  const emptied = (update, type) => {
    const doc = document(77, true)
    Y.applyUpdate(doc, Uint8Array.from(update))
    const held = type === 'array' ? doc.getArray(type) : type === 'map' ? doc.getMap(type) : doc.getText(type)
    doc.transact(() => type === 'map' ? [...held.keys()].forEach(key => held.delete(key)) : held.delete(0, held.length))
    const [[client, clock]] = Y.decodeStateVector(Y.encodeStateVector(doc))
    const vector = Y.encodeStateVector(new Map([[client, clock]]))
    return [
      { form: 1, update: [...Y.encodeStateAsUpdate(doc)] },
      { form: 2, update: [...Y.encodeStateAsUpdateV2(doc)] },
      { form: 1, update: [...Y.encodeStateAsUpdate(doc, vector)] },
      { form: 2, update: [...Y.encodeStateAsUpdateV2(doc, vector)] }
    ]
  }

  return { names, document, edit, histories, conversation, closed, withoutEmbeds, emptied }
}

module.exports = { begin }

// What documents 01 and 02 (W-210, W-211) and docs/DECISIONS.md say of sorting, in plain JavaScript: the update and the vector as update-model.cjs reads them, which blocks are
// taken, one after another, and what is reported. Made without our Rattle code and without Yjs.
'use strict'
const { readUpdate, readVector } = require('./update-model.cjs')
const { nowhere } = require('./model.cjs')

const highestFirst = clients => [...new Set(clients)].sort((a, b) => a > b ? -1 : 1)
const ids = b => [b.left, b.right, b.parent].filter(id => id !== null)

// Blocks in reading order, and a vector's entries. `choose` has the clients whose front is ready, highest first, and says which one is taken. `rule` is
// 28, document 01's, or 13, by which a block above its own client's reach is held as well (W-210). Beside what is reported: `fronts` has
// what each pending client waits with, `rest` all blocks left pending, highest client first; `across`, that a block above its own client's reach was taken;
// `hung`, that a block was taken which names an id of its own client that is not there yet.
const sorted = (blocks, entries, { rule = 28, choose = ([highest]) => highest } = {}) => {
  const clients = highestFirst(blocks.map(b => b.client))
  const queues = new Map(clients.map(client => [client, blocks.flatMap((b, n) => b.client === client ? [n] : [])]))
  const taken = new Map(clients.map(client => [client, 0]))
  const reaches = new Map(entries.map(e => [e.client, e.clock]))
  const reach = client => reaches.get(client) ?? 0n
  const met = id => id.clock < reach(id.client)
  const front = client => blocks[queues.get(client)[taken.get(client)]]
  const above = b => b.kind !== 'skip' && b.clock > reach(b.client)
  // The client that a block waits for: that of its first dependency on another client that is not met; by rule 13, else its own.
  const waits = b => ids(b).find(id => id.client !== b.client && !met(id))?.client ?? (rule === 13 && above(b) ? b.client : null)
  const order = []
  let [across, hung] = [false, false]
  for (;;) {
    const ready = clients.filter(client => front(client) !== undefined && waits(front(client)) === null)
    if (ready.length === 0) break
    const client = choose(ready)
    const b = front(client)
    order.push(queues.get(client)[taken.get(client)])
    across = across || above(b)
    hung = hung || ids(b).some(id => id.client === client && !met(id))
    taken.set(client, taken.get(client) + 1)
    if (b.kind !== 'skip' && b.clock + b.length > reach(client)) reaches.set(client, b.clock + b.length)
  }
  const pending = clients.filter(client => front(client) !== undefined)
  return {
    order,
    taken: clients.map(client => [client, taken.get(client)]),
    reaches: highestFirst([...clients, ...entries.map(e => e.client)]).map(client => [client, reach(client)]),
    pending: pending.map(client => [client, waits(front(client)), reach(waits(front(client)))]),
    fronts: pending.map(front),
    rest: pending.flatMap(client => queues.get(client).slice(taken.get(client)).map(n => blocks[n])),
    across,
    hung
  }
}

// W-211, worked out by itself: sweeps over all clients, lowest first, each of which has its fronts taken while they are ready, until a sweep takes nothing.
const swept = (blocks, entries, rule) => {
  const rising = highestFirst(blocks.map(b => b.client)).reverse()
  const waiting = new Map(rising.map(client => [client, [...blocks.keys()].filter(n => blocks[n].client === client)]))
  const reach = new Map(entries.map(e => [e.client, e.clock]))
  const reached = client => reach.get(client) ?? 0n
  // the client that block n waits for, or none
  const missing = n => {
    const b = blocks[n]
    if (b.kind === 'skip') return null
    for (const id of [b.left, b.right, b.parent]) if (id !== null && id.client !== b.client && id.clock >= reached(id.client)) return id.client
    return rule === 13 && b.clock > reached(b.client) ? b.client : null
  }
  const order = []
  for (let before = -1; before < order.length;) {
    before = order.length
    for (const client of rising) {
      const queue = waiting.get(client)
      while (queue.length > 0 && missing(queue[0]) === null) {
        const n = queue.shift()
        const end = blocks[n].clock + blocks[n].length
        if (blocks[n].kind !== 'skip' && end > reached(client)) reach.set(client, end)
        order.push(n)
      }
    }
  }
  const falling = [...rising].reverse()
  const left = falling.filter(client => waiting.get(client).length > 0)
  return {
    order,
    taken: falling.map(client => [client, order.filter(n => blocks[n].client === client).length]),
    reaches: highestFirst([...rising, ...entries.map(e => e.client)]).map(client => [client, reached(client)]),
    pending: left.map(client => missing(waiting.get(client)[0])).map((other, k) => [left[k], other, reached(other)])
  }
}

// With `slowly` by sweeps.
const sort = (form, update, vector, { rule = 28, slowly = false, blockRows, rangeRows, orderRows = Infinity } = {}) => {
  if (rule !== 13 && rule !== 28) return nowhere(12)
  const read = readUpdate(form, update, blockRows, rangeRows)
  if (read.number !== 0) return read
  const remote = readVector(vector)
  if (remote.number !== 0) return remote
  const r = slowly ? swept(read.blocks, remote.entries, rule) : sorted(read.blocks, remote.entries, { rule })
  return r.order.length > orderRows ? nowhere(8) : { number: 0, read, entries: remote.entries, ...r }
}

module.exports = { sort, sorted }

// What document 02 (W-206, W-211) says of sorting by held ids, in plain JavaScript: the update and the held ids as update-model.cjs reads them, which blocks are
// taken, one after another or by sweeps, and what is reported. Ids are a set, that of all pieces ever put into it. Made without our Rattle code and without Yjs.
'use strict'
const { readUpdate, readHeld } = require('./update-model.cjs')
const { nowhere } = require('./model.cjs')

const highestFirst = clients => [...new Set(clients)].sort((a, b) => a > b ? -1 : 1)

// Pieces are { client, clock, length }; an empty one has no id.
const setOf = pieces => {
  const all = [...pieces]
  return {
    has: ({ client, clock }) => all.some(x => x.client === client && x.clock <= clock && clock < x.clock + x.length),
    add: piece => all.push(piece)
  }
}

// Blocks in reading order, and held ranges: what is still to be taken of each client, what is held so far, and what was taken. A block waits for the first of
// its ids of other clients that is not held; a Skip has no ids, and puts none into the set.
const begin = (blocks, ranges) => {
  const clients = highestFirst(blocks.map(b => b.client))
  const waiting = new Map(clients.map(client => [client, [...blocks.keys()].filter(n => blocks[n].client === client)]))
  const held = setOf(ranges)
  const order = []
  const front = client => blocks[waiting.get(client)[0]]
  const missing = b => [b.left, b.right, b.parent].find(id => id !== null && id.client !== b.client && !held.has(id))
  return {
    clients,
    order,
    isReady: client => front(client) !== undefined && missing(front(client)) === undefined,
    take: client => {
      const b = front(client)
      if (b.kind !== 'skip') held.add(b)
      order.push(waiting.get(client).shift())
    },
    // `rest` has all blocks left pending, `fronts` what each pending client waits with, `held` the set as it is now.
    reports: () => {
      const pending = clients.filter(client => front(client) !== undefined)
      return {
        order,
        taken: clients.map(client => [client, order.filter(n => blocks[n].client === client).length]),
        pending: pending.map(client => [client, missing(front(client)).client, missing(front(client)).clock]),
        fronts: pending.map(front),
        rest: pending.flatMap(client => waiting.get(client).map(n => blocks[n])),
        held
      }
    }
  }
}

// `choose` has the clients whose front is ready, highest first, and says which one is taken.
const sorted = (blocks, ranges, choose = ([highest]) => highest) => {
  const sorting = begin(blocks, ranges)
  for (;;) {
    const ready = sorting.clients.filter(sorting.isReady)
    if (ready.length === 0) return sorting.reports()
    sorting.take(choose(ready))
  }
}

// W-211: sweeps over all clients, lowest first, each of which has its fronts taken while they are ready, until a sweep takes nothing.
const swept = (blocks, ranges) => {
  const sorting = begin(blocks, ranges)
  for (let before = -1; before < sorting.order.length;) {
    before = sorting.order.length
    for (const client of [...sorting.clients].reverse()) while (sorting.isReady(client)) sorting.take(client)
  }
  return sorting.reports()
}

// With `slowly` by sweeps.
const sort = (form, update, held, { slowly = false, blockRows, rangeRows, heldRows, orderRows = Infinity } = {}) => {
  const read = readUpdate(form, update, blockRows, rangeRows)
  if (read.number !== 0) return read
  const given = readHeld(held, heldRows)
  if (given.number !== 0) return given
  const r = (slowly ? swept : sorted)(read.blocks, given.ranges)
  return r.order.length > orderRows ? nowhere(8) : { number: 0, read, given, ...r }
}

module.exports = { sort, sorted }

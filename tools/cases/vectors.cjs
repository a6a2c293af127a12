// State vectors for an update's blocks: of some of its clients, at borders of their blocks, inside one of them, beyond the end; and of other clients.
'use strict'
const s = require('./spelling.cjs')
const shapes = require('./shapes.cjs')
const { many } = require('./random.cjs')

const begin = loose => {
  const { random, pick } = loose
  const { someClient, shuffled } = shapes.begin(loose)
  const vectorOf = (entries, spelt = null) => [...s.u(entries.length, spelt), ...entries.flatMap(([client, clock]) => [...s.u(client, spelt), ...s.u(clock, spelt)])]
  const between = (low, high) => high > low ? low + BigInt(random(Number(high - low))) : low
  // What a vector may say of a client: nothing, at a border of its blocks, inside one of them (of any kind, or one of `wide`), beyond the end.
  const remote = (blocks, kinds) => {
    const end = blocks[blocks.length - 1].clock + blocks[blocks.length - 1].length
    const wide = blocks.filter(b => kinds.includes(b.kind) && b.length > 1n)
    const inside = b => between(b.clock + 1n, b.clock + b.length)
    switch (random(10)) {
      case 0: return 0n
      case 1: return pick(blocks).clock
      case 2: return end
      case 3: return end + BigInt(1 + random(100)) > 2n ** 31n - 1n ? end : end + BigInt(1 + random(100))
      case 4: return between(0n, end)
      case 5: return inside(pick(blocks))
      default: return inside(pick(wide.length > 0 ? wide : blocks))
    }
  }
  const someVector = ({ blocks }, kinds = ['text']) => {
    const clients = [...new Set(blocks.map(b => b.client))]
    const named = clients.filter(() => random(5) > 0).map(client => [client, remote(blocks.filter(b => b.client === client), kinds)])
    const others = many(random(3), someClient).filter(client => !clients.includes(client)).map(client => [client, BigInt(random(50))])
    const entries = shuffled([...named, ...new Map(others)])
    return [...vectorOf(entries, random(4) === 0 ? loose : null), ...(random(9) === 0 ? [255] : [])]
  }
  return { vectorOf, between, someVector }
}

module.exports = { begin }

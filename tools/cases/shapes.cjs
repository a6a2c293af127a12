// What updates put together by hand are made of: blocks and sections by their names, random ones in shapes that Yjs does not write, and damage.
'use strict'
const { signed } = require('./model.cjs')
const s = require('./spelling.cjs')
const { many } = require('./random.cjs')

const p = k => 2n ** BigInt(k)
const gc = length => ({ info: 0, length })
const skip = length => ({ info: 10, length })
const gone = length => ({ info: 129, left: [5, 0], length })
const section = (client, clock, ...blocks) => ({ client, clock, blocks })
const replaced = (update, k, ...put) => [...update.slice(0, k), ...put, ...update.slice(k + 1)]
const letters = ['a', 'z', '\u0000', '\u007f', '\u0080', 'é', '\u07ff', '\u0800', '€', '\ud7ff', '\ue000', '\ufeff', '\uffff', '\u{10000}', '😀', '\u{10ffff}']

// With `contents` items have these content numbers, 6, 7 and 8 too.
const begin = ({ random, pick }, contents = [1, 3, 4]) => {
  const string = most => many(random(most + 1), () => pick(letters)).join('')
  const someClient = () => pick([0n, 1n, 5n, 9n, 127n, 128n, 70000n, p(31), p(32) - 1n, p(53) - 1n, BigInt(random(1000))])
  const someClock = () => BigInt(pick([0, 1, 2, random(100), random(100000), random(2 ** 29)]))
  const someId = () => [someClient(), someClock()]
  const someLength = () => pick([0, 0, 1, 1, 2, 3, random(200), random(100000)])
  // Any-values spelt as lib0 does not: numbers longer than needed, floats that are whole, keys again; and JSON text as it may stand, or what is none.
  const longer = spelling => random(3) === 0 ? s.padded(spelling, spelling.length + random(10 - spelling.length)) : spelling
  const sized = bytes => [...longer(s.u(bytes.length)), ...bytes]
  const someBytes = n => many(n, () => random(256))
  const someAny = deep => {
    switch (random(deep === 0 ? 12 : 15)) {
      case 0: return [127]
      case 1: return [126]
      case 2: case 3: return [125, ...longer(signed(random(2) === 0, BigInt(pick([0, 1, 63, 64, random(2 ** 31)])) << BigInt(pick([0, 0, 0, 0, 0, 20, 22, 31]))))]
      case 4: return [124, ...someBytes(4)]
      case 5: return [123, ...someBytes(8)]
      case 6: return [122, ...someBytes(8)]
      case 7: return [121]
      case 8: return [120]
      case 9: case 10: return [119, ...sized(s.utf8(string(4)))]
      case 11: return [116, ...sized(someBytes(random(5)))]
      case 12: {
        const n = random(4)
        return [118, ...longer(s.u(n)), ...many(n, () => [...sized(s.utf8(string(1))), ...someAny(deep - 1)]).flat()]
      }
      default: {
        const n = random(4)
        return [117, ...longer(s.u(n)), ...many(n, () => someAny(deep - 1)).flat()]
      }
    }
  }
  const json = ['true', 'null', '"red"', '{"a":1}', '-0.5', '[]', ' { "b" : [ 1.50, 2e3 ] }', '"\\u00e9"']
  const someJson = () => s.utf8(random(12) > 0 ? pick(json) : pick(['}', '', 'undefined', string(5)]))
  const marks = ['b', 'bold', 'color', 'é', '😀', '']
  const content = (form, kind) => {
    switch (kind) {
      case 1: return { length: someLength() }
      case 3: return { binary: many(random(6), () => random(256)) }
      case 4: return { text: string(5) }
      case 6: return { mark: pick(marks), value: form === 1 ? someJson() : someAny(3) }
      case 7: {
        const type = random(7)
        return { type, ...([3, 5].includes(type) ? { mark: pick(marks) } : {}) }
      }
      default: {
        const count = pick([0, 1, 1, 2, 3, 5])
        return { values: { count, bytes: many(count, () => someAny(3)).flat() } }
      }
    }
  }
  const someBlock = form => {
    switch (random(8)) {
      case 0: return gc(someLength())
      case 1: return skip(someLength())
      default: {
        const kind = pick(contents)
        const info = kind | pick([0, 0, 64, 128, 192]) | pick([0, 32])
        const named = random(2) === 0
        return {
          info,
          left: someId(),
          right: someId(),
          parentInfo: named ? 1 : pick([0, 0, 2, 127, 128, 255, form === 1 ? 2 ** 31 - 1 : 3]),
          ...(named ? { name: string(4) } : { parent: someId() }),
          key: string(3),
          ...content(form, kind)
        }
      }
    }
  }
  // Ranges: in form 1 in any order and empty too; in form 2 they only rise and are not empty, but a client may come again.
  const someRanges = form => {
    let at = 0
    return many(random(5), () => {
      if (form === 1) return [random(40), random(8)]
      at += random(5)
      const length = 1 + random(6)
      at += length
      return [at - length, length]
    })
  }
  const someSections = form => [...new Set(many(random(5), someClient))].map(client => ({ client, clock: someClock(), blocks: many(random(6), () => someBlock(form)) }))
  // What an update is spelt from.
  const some = form => ({ sections: someSections(form), deletes: many(random(4), () => [pick([5n, 9n, someClient()]), someRanges(form)]) })

  const damaged = update => {
    const k = random(update.length)
    const b = update[k]
    return replaced(update, k, pick([random(256), b ^ 128, b ^ 64, b ^ (1 << random(8)), 0, 10, 255]))
  }
  const shuffled = all => all.map(x => [random(2 ** 30), x]).sort(([a], [b]) => a - b).map(([, x]) => x)
  // Sections of some of these clients, with ids among them at low clocks.
  const tangled = pool => {
    // Its own client seldom: an id of it that is not there is never waited for, and Yjs throws.
    const idFor = client => [random(9) === 0 ? client : pick(pool.filter(other => other !== client)), random(pick([1, 2, 3, 4, 8]))]
    const contents = [...[0, 1, 2, 4].map(length => ({ kind: 1, length })), { kind: 3, binary: [7] }, ...['a', 'é😀'].map(text => ({ kind: 4, text }))]
    const block = client => {
      const { kind, ...held } = pick(contents)
      const [one, two] = [idFor(client), idFor(client)]
      switch (random(9)) {
        case 0: return gc(random(3))
        case 1: return skip(random(4))
        case 2: case 3: return { info: kind | 128, left: one, ...held }
        case 4: return { info: kind | 64, right: one, ...held }
        case 5: return { info: kind | 192, left: one, right: two, ...held }
        case 6: return { info: kind, parent: one, ...held }
        default: return { info: kind, name: 't', ...held }
      }
    }
    const clients = shuffled(pool).slice(0, pick([1, 2, 3, 3, 3, 5]))
    return clients.map(client => section(client, pick([0, 0, 0, 0, 1, 3]), ...many(pick([0, 1, 2, 3, 3, 4]), () => block(client))))
  }
  return { some, someAny, someClient, damaged, shuffled, tangled }
}

module.exports = { gc, skip, gone, section, replaced, letters, begin }

// Random numbers that are the same every time: xorshift, 32 bits.
'use strict'

const begin = seed => {
  let state = seed
  const random = below => {
    state ^= state << 13
    state ^= state >>> 17
    state ^= state << 5
    return (state >>> 0) % below
  }
  const pick = from => from[random(from.length)]
  return { random, pick }
}
const many = (n, f) => Array.from({ length: n }, (_, k) => f(k))

module.exports = { begin, many }

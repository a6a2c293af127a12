// The case stream (crates/cases, made by tools/cases): what each case asks, in order.
import { readFileSync } from 'node:fs'

/** The arguments of each operation: `n` a number, `b` bytes. */
const TAKEN = {
  1: 'bn', 2: 'bn', 3: 'nn', 4: 'nnn', 5: 'bn', 6: 'bn', 7: 'bn', 8: 'bn', 9: 'bn', 10: 'bn', 11: 'bn', 12: 'bbn', 13: 'b', 14: 'nnnb', 15: 'nnb', 16: 'nnnnnbb',
  17: 'nnnnbb', 18: 'b', 19: 'nnb', 20: 'nb', 21: 'nnnb', 22: 'nnnnnbb', 25: 'nnnnnbb', 26: 'nnnnnbb', 27: 'nnnnnbb', 30: 'b', 31: 'bnn', 32: 'bn'
}

/** Each case as its operation and its arguments, up to the first that is none. A number over 2^53-1 is a bigint. */
export function * cases() {
  const source = readFileSync(new URL('../../../crates/cases/stdin', import.meta.url))
  let at = 0
  const number = () => {
    const value = source.readBigUInt64LE(at)
    at += 8
    return value <= Number.MAX_SAFE_INTEGER ? Number(value) : value
  }
  const bytes = () => {
    const from = at + 4
    at = from + source.readUInt32LE(at)
    return source.subarray(from, at)
  }
  while (TAKEN[source[at]] !== undefined) {
    const operation = source[at++]
    yield [operation, Array.from(TAKEN[operation], kind => kind === 'n' ? number() : bytes())]
  }
}

// Why a call was refused, and which byte it blames.

import { REFUSALS } from './header.js'

/** What each number says, in the header's words. */
export const WORDS = Object.fromEntries([...REFUSALS.matchAll(/^(\d+) (.*)$/gm)].map(([, number, words]) => [number, words]))

export class Refused extends Error {
  /** `at` is the place of the byte that is blamed, counted from 0 in the update; null where none is. */
  constructor(number, at) {
    const words = WORDS[number] ?? 'a number that this binding does not know'
    super(`refused ${number}${at === null ? '' : ` at byte ${at}`}: ${words}`)
    this.name = 'Refused'
    this.number = number
    this.at = at
    this.words = words
  }
}

// Arithmetic that Python and JavaScript define alike, to the last bit: exact.py once more, which says why.

export const PI = 3.141592653589793;
const MODULUS = 2147483647;
const LASTS = [14, 12, 10, 8, 6, 4, 2]; // of the power series
export const SEEDS = MODULUS - 1; // seeds are 0 to SEEDS - 1

// The nearest whole number; halves go up.
export const nearest = (value) => Math.floor(value + 0.5);

// An angle in degrees.
export const degrees = (radians) => radians * (180 / PI);

// Both by their power series, after whole quarters of a turn are taken off.
export function sineAndCosine(radians) {
  const quarters = nearest(radians / (PI / 2));
  const rest = radians - quarters * (PI / 2);
  const square = rest * rest;
  let sine = 1;
  let cosine = 1;
  for (const last of LASTS) {
    sine = 1 - (square / (last * (last + 1))) * sine;
    cosine = 1 - (square / (last * (last - 1))) * cosine;
  }
  sine *= rest;
  const turned = quarters - 4 * Math.floor(quarters / 4);
  if (turned === 0) return [sine, cosine];
  if (turned === 1) return [cosine, -sine];
  return turned === 2 ? [-sine, -cosine] : [-cosine, sine];
}

// The generator of Park and Miller.
export class Noise {
  constructor(seed) {
    this.state = seed + 1;
    for (let n = 0; n < 20; n += 1) this.draw();
  }

  // The next number between 0 and 1.
  draw() {
    const product = 16807 * this.state;
    this.state = product - MODULUS * Math.floor(product / MODULUS);
    return this.state / MODULUS;
  }

  between(low, high) {
    return low + (high - low) * this.draw();
  }

  // A number of nearly normal distribution around zero: twelve draws, less six.
  normal(deviation) {
    let total = 0;
    for (let n = 0; n < 12; n += 1) total += this.draw();
    return (total - 6) * deviation;
  }
}

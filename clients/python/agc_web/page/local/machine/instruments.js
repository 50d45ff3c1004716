// The instruments of the examples, by their names.
import { Instrument as Landing } from '../../../../../../examples/descent/craft.js';
import { Craft, Instrument as Lander } from '../../../../../../examples/lander/craft.js';

const INSTRUMENTS = {
  descent: (options) => new Landing(options),
  lander: () => new Lander(new Craft()),
};

// Returns the instruments of an example; none without a name.
export function makeInstruments(name, options) {
  return name && Object.hasOwn(INSTRUMENTS, name) ? [INSTRUMENTS[name](options ?? {})] : [];
}

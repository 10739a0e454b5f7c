// The package: the calls over the module that lies beside it as text, so that nothing is fetched.
import { bytes } from "./bytes.js";
import { callsOf } from "./calls.js";

export { InvalidInput, NotPermutation, OutOfMemory, RimopakuError, RoomTooSmall, callsOf } from "./calls.js";
export const { order, orderHolding, counts, columns } = callsOf(await WebAssembly.compile(bytes()));

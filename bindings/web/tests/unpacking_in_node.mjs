/** usage: node bindings/web/tests/unpacking_in_node.mjs */
import { COUNT, faultsOfUnpacking } from "./unpacking.mjs";

const faults = await faultsOfUnpacking();
for (const fault of faults) console.log(`unpacking: ${fault}`);
console.log(`unpacking: ${COUNT} streams, each with several ends: ${faults.length} faults`);
process.exit(faults.length ? 1 : 0);

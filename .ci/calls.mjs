// calls.mjs COUNT: a text of so many calls of two phones, with 0 to 3 features between, and its journal by random
// turns. The same count gives the same text.
import { drawn_journal, network_of } from "./world.mjs";

const count = +process.argv[2];
const codecs = ["g711", "g722", "g729", "opus"];
const boxes = ["media 1", ...codecs.map((codec) => "codec " + codec)];
const channels = [];
const commands = [];
for (let call = 0; call < count; call++) {
  const features = Array.from({ length: call % 4 }, (_, k) => "f" + call + "-" + k);
  const [first, second] = [codecs[call % 4], codecs[(call + 1) % 4]];
  boxes.push("dev l" + call + " " + first + " " + second);
  boxes.push(...features.map((it) => "feat " + it));
  boxes.push("dev r" + call + " " + second + " " + first);
  const ends = ["l" + call + " s", ...features.flatMap((it) => [it + " w", it + " e"]), "r" + call + " s"];
  for (let i = 0; i < ends.length; i += 2) channels.push("chan audio " + ends[i] + " " + ends[i + 1]);
  commands.push(...features.map((it) => "link " + it + " w e"), "set r" + call + " s hold", "set l" + call + " s open");
}
const text = [...boxes, ...channels, "begin", ...commands, "settle"].map((line) => line + "\n").join("");
process.stdout.write(text + drawn_journal(network_of(text), 1n));

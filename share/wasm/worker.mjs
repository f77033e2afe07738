// One run of bpfdb in a thread of its own, which the page can end at any time. The page sends `run`, and then lines of standard input; it is sent what is written, when
// a line is wanted, and the status at the end.
import { MemoryHost, start } from "./host.mjs";

let fed;

// The lines that a run is given at once; after them there are none, and that more were wanted is told.
function given(lines) {
  const left = [...lines];
  return () => {
    if (left.length) return left.shift();
    postMessage({ asks: true });
    return null;
  };
}

// The lines that come while it waits.
function typed() {
  const come = [];
  let wake;
  fed = (line) => {
    if (!wake) return come.push(line);
    wake(line);
    wake = undefined;
  };
  return () => {
    if (come.length) return come.shift();
    postMessage({ asks: true });
    return new Promise((resolve) => (wake = resolve));
  };
}

async function run({ module, words, files, lines, waits, memory, room }) {
  const tell = (file, bytes) => postMessage({ file, bytes }, [bytes.buffer]);
  const host = new MemoryHost(words, { files: new Map(files), next: waits ? typed() : given(lines), tell, room });
  postMessage({ status: await start(module, host, memory, waits) });
}

onmessage = ({ data }) => (data.run ? run(data.run) : fed(data.line));

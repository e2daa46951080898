// The program in a Worker: the first message brings the module, each later one a call.
/** @type {Promise<Basin>} */
let made;
onmessage = async ({ data }) => {
  if (data.module) {
    made = load(data.module);
    return;
  }
  try {
    const answer = (await made).run(data.words, data.files);
    postMessage({ number: data.number, answer }, [answer.out.buffer, answer.err.buffer]);
  } catch (error) {
    postMessage({ number: data.number, fault: String(error) });
  }
};
